"""Random windows and variant files, the same ones at each call: records along some bases, and a window of these, most often from the start
of a record to the end of one. In half of the draws one thing or two are then changed, so that a file or a window may be wrong."""
import random

from built import HEADING, LAST, Refused, built, records_of, segments_of, size_of

DICE = random.Random(6)


def below(count):
    """A number below it. No other call of `random` is sure to give the same numbers everywhere."""
    return int(DICE.random() * count)


def one(things):
    return things[below(len(things))]


def letters(count, among='ACGT'):
    return ''.join(one(among) for _ in range(count))


def cased(word):
    return ''.join(letter.lower() if below(8) == 0 else letter for letter in word)


def alternates(ref):
    """ALT: other bases, an insertion, a deletion, several, or none."""
    if below(6) == 0:
        return '.'
    kinds = [letters(len(ref)), ref + letters(1 + below(3)), ref[0], letters(1 + below(4), 'ACGTN')]
    found = []
    for _ in range(one([1, 1, 1, 2, 4])):
        alt = one(kinds) if below(3) else letters(1 + below(3))
        if alt not in found + [ref] or below(12) == 0:
            found.append(alt)
    return ','.join(map(cased, found)) or '.'


class Draw:
    """A window and a file, before its lines are joined."""

    def __init__(self):
        bases = letters(1 + below(24), one(['ACGT', 'ACGT', 'AC', 'ACGTN']))
        self.name = one(['7', '7', '7', 'chr7', ''])
        self.before = LAST - len(bases) if below(12) == 0 else one([0, 0, 9, 99, 70000])
        self.records, at = [], below(5)
        while at < len(bases):
            ref = bases[at:at + one([1, 1, 1, 2, 3, 6])]
            self.records.append([self.name, str(self.before + at + 1), one(['.', '', 'rs1']), cased(ref), alternates(ref), '.', '.', '.'])
            at += len(ref) + one([0, 0, 1, 2, 5])
        edges = [0, len(bases)]
        for record in self.records:
            edges += [self.at(record), self.at(record) + len(record[3])]
        start, end = sorted(one(edges) if below(10) else below(len(bases) + 1) for _ in 'ab')
        if start == end and below(4):
            start, end = 0, len(bases)
        self.window, self.first = cased(bases[start:end]).encode(), self.before + start + 1
        self.others = [one(['#', '##x', '#CHROM\tPOS']) for _ in range(below(3))]
        self.last_feed, self.byte_changes = below(5) > 0, []
        for record in self.records:
            if not start - len(record[3]) < self.at(record) < end and below(3) == 0:
                record[3] = letters(len(record[3]), 'ACGTN')

    def at(self, record):
        return int(record[1]) - self.before - 1

    def file(self):
        lines = ['\t'.join(record) for record in self.records]
        for line in self.others:
            lines.insert(below(len(lines) + 1), line)
        file = HEADING + '\n'.join([one(['1', '2', ''])] + lines).encode() + (b'\n' if self.last_feed else b'')
        for change in self.byte_changes:
            file = change(file)
        return file


# ---- what may be changed

def other_chrom(draw):
    one(draw.records)[0] = one(['8', 'chr', 'chr77', 'CHR7', '', '7'])


def other_pos(draw):
    record = one(draw.records)
    pos = record[1]
    record[1] = one(['', '0', '2147483648', '4294967299', '18446744073709551618', '-1', '1.', '+3',
                     '0' + pos, pos + 'x', str(1 + below(30))])


def other_ref(draw):
    record = one(draw.records)
    ref = record[3]
    record[3] = one(['', '.', '*', 'R', ref + 'A', ref[1:], letters(len(ref)), 'n' * len(ref), ref.lower()])


def other_alt(draw):
    record = one(draw.records)
    ref, alt = record[3], record[4]
    record[4] = one(['', '.', '*', '<DEL>', 'R', 'N,n', ref.lower()] + [alt + more for more in (',', ',.', ',' + ref, ',' + alt.lower())])


def moved(draw):
    """A record by some bases."""
    record = one(draw.records)
    if record[1].isdigit():
        record[1] = str(max(0, int(record[1]) + one([-3, -2, -1, 1, 2])))


def swapped(draw):
    """Two records, which may be the same."""
    a, b = below(len(draw.records)), below(len(draw.records))
    draw.records[a], draw.records[b] = draw.records[b], draw.records[a]


def doubled(draw):
    draw.records.insert(below(len(draw.records) + 1), list(one(draw.records)))


def other_fields(draw):
    """Fewer fields, or more."""
    record = one(draw.records)
    record[5:] = ['.'] * one([0, 2, 3, 4, 9])


def other_first(draw):
    draw.first = one([0, max(0, draw.first - 1), draw.first + 1, LAST, LAST + 1, 2 ** 64 - 1])


def other_window(draw):
    """A base less or more, or none."""
    bases = draw.window
    draw.window = one([bases[1:], bases[:-1], bases + b'A', b''])


def other_base(draw):
    k = below(len(draw.window) + 1)
    draw.window = draw.window[:k] + one([b'R', b'n', b'-', b'\0', b'T', b't', b'*', b'\xc1']) + draw.window[k + 1:]


def other_heading(draw):
    k = below(len(HEADING))
    draw.byte_changes.append(lambda file: one([file[:k] + b'4' + file[k + 1:], file[:k], file[k + 1:]]))


def other_line(draw):
    draw.others.append(one(['', '\r', '#7', ' ', '7']))


def other_byte(draw):
    """A byte of the file that is another, is gone, or is new."""
    new, old = one([(0, 1), (1, 0), (1, 1)])
    byte = bytes([one(b'ACGTNacgtnR.,*<\t\t\n\n\r#0123456789 \0\xff')]) * new

    def change(file):
        at = len(HEADING) + below(len(file) - len(HEADING) + 1)
        return file[:at] + byte + file[at + old:]
    draw.byte_changes.insert(0, change)


OF_RECORDS = [other_chrom, other_pos, other_ref, other_alt, other_alt, other_fields, moved, swapped, doubled]
OF_ALL = [other_first, other_window, other_base, other_line, other_byte, other_byte, other_heading]


def room(file, window, first, name):
    """As many bytes as there are, as many as are needed, or one less, or any."""
    try:
        size = len(built(file, window, first, name, 40000))
    except Refused:
        return one([40000, 40000, 0])
    return one([40000] * 5 + [size] * 5 + [size + 1, size - 1, below(size)])


def changed(draw):
    for _ in range(one([0, 0, 0, 1, 1, 2])):
        one(OF_RECORDS + OF_ALL if draw.records else OF_ALL)(draw)
    return draw


def small():
    draw = changed(Draw())
    file, name = draw.file(), draw.name.encode()
    return file, draw.window, draw.first, name, room(file, draw.window, draw.first, name)


def large():
    """The same with bases after the records, up to some 32,768 bytes of text."""
    while True:
        draw = Draw()
        draw.records = [record for record in draw.records if int(record[1]) < draw.first + len(draw.window)]
        if draw.records and below(2):
            other_alt(draw)
        draw.window += b'C'
        file, name = draw.file(), draw.name.encode()
        try:
            size = size_of(segments_of(draw.window, records_of(file, draw.window, draw.first, name)))
        except Refused:
            continue
        draw.window += b'C' * (32768 + one([-1, 0, 0, 1, 2, 9]) - size)
        if draw.first + len(draw.window) - 1 <= LAST:
            return file, draw.window, draw.first, name, one([40000, 32768, 32768, 32767, 0])


def examples():
    """What `build` is given."""
    return [small() for _ in range(2950)] + [large() for _ in range(50)]
