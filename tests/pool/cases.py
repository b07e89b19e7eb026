#!/usr/bin/env python3
"""Cases for ./pool, each a folder with reference.fa, variants.vcf, name, and what must come of it: `lines` and the stretches, or `words`.
    cases.py texts FOLDER NUMBER        random chromosomes, in files of every form
    cases.py wrong FOLDER NUMBER        the same with one thing wrong
    cases.py haplotypes FOLDER NUMBER   small windows with sequences to look for, and by every haplotype whether each is there: `verdicts`
    cases.py real FOLDER DATA           the files of htslib-test in the folder DATA"""
import os
import random
import sys

sys.dont_write_bytecode = True
sys.path.insert(0, os.path.dirname(os.path.abspath(__file__)))
from reference import Wrong, haplotypes, pooled, records_of, sequence_of  # noqa: E402

# What the program says of what is wrong.
WORDS = {
    'FASTA': 'it does not begin with >', 'letter': 'this byte is no letter', 'name': 'no sequence in it has that name',
    'no base': 'the sequence of that name has no base', 'VCF': 'it does not begin with ##fileformat=VCFv4.',
    'fields': 'it has fewer than eight fields', 'columns': 'it does not have as many columns', 'POS': 'POS is no number from 1 to 2147483647', 'REF is empty': 'REF is empty',
    'REF': 'REF has a byte that is no letter', 'ALT': 'ALT ', 'long': 'the record is too long',
    'equal': 'is equal to REF or to an earlier one',
    'order': 'it begins before the record before it ends', 'beyond': 'the last base of the chromosome',
    'reference': 'REF is not what the reference has there', 'chromosome': 'none of its records has that name',
}


def drawn(count, letters='ACGT'):
    return ''.join(random.choices(letters, k=count))


def cased(word):
    """Some letters in lower case."""
    return ''.join(letter.lower() if random.random() < 0.2 else letter for letter in word)


def alternates(ref):
    """ALT of a record: bases, insertions, deletions, several, or none."""
    found = []
    for _ in range(random.choice([1, 1, 1, 2, 3])):
        kind = random.randrange(4)
        alt = {0: drawn(len(ref)), 1: ref + drawn(random.randint(1, 12)), 2: ref[0], 3: drawn(random.randint(1, 5), 'ACGTN')}[kind]
        if alt != ref and alt not in found:
            found.append(alt)
    return found


def records_in(bases, distance):
    """Records along a sequence, some of which touch."""
    at, records = random.randrange(distance + 1), []
    while at < len(bases):
        ref = bases[at:at + random.choice([1, 1, 1, 2, 4, 9])]
        records.append((at, ref, alternates(ref)))
        at += len(ref) + random.choice([0, random.randrange(distance + 1)])
    return records


def line_of(name, record, samples):
    at, ref, alts = record
    alt = ','.join(cased(allele) for allele in alts) or '.'
    fields = [name, str(at + 1), random.choice(['.', 'rs1', '']), cased(ref), alt, '.', 'PASS', 'AC=1']
    return '\t'.join(fields + (['GT'] + ['0|1'] * samples if samples else []))


def wrapped(bases, width, end):
    return ''.join(bases[i:i + width] + end for i in range(0, len(bases), width))


def fasta_of(name, bases):
    """A file in FASTA format with other sequences around, in one of its forms."""
    width, end = random.choice([1, 7, 60, 61, 10 ** 6]), random.choice(['\n', '\r\n'])
    others = [name + 'x', name[:-1], 'x' + name]
    before = ''.join(f'>{other} {name}{end}{wrapped(drawn(30), 11, end)}' for other in others if random.random() < 0.5)
    behind = f'>{name} again{end}GGGG{end}' if random.random() < 0.5 else ''
    own = f'>{name}{random.choice(["", " a sample", chr(9) + "x"])}{end}{wrapped(cased(bases), width, end)}'
    whole = before + own + behind
    return whole[:-len(end)] if random.random() < 0.3 else whole


def vcf_of(name, records, others=True):
    """A variant file with lines of other chromosomes and comments in between, in one of its forms."""
    end, samples = random.choice(['\n', '\r\n']), random.choice([0, 0, 1, 5])
    head = '#CHROM\tPOS\tID\tREF\tALT\tQUAL\tFILTER\tINFO' + ('\tFORMAT' + ''.join(f'\ts{i}' for i in range(samples)) if samples else '')
    lines = ['##fileformat=VCFv4.2', '##contig=<ID=x>'] + [head] * (random.random() < 0.8)
    for record in records:
        if others and random.random() < 0.1:
            lines.append(random.choice(['# a comment', line_of(name + '2', (7, 'A', ['<DEL>']), samples), line_of('y', record, samples)]))
        lines.append(line_of(name, record, samples))
    whole = end.join(lines) + end
    return whole[:-len(end)] if random.random() < 0.3 else whole


def store(folder, fasta, name, vcf):
    """Writes a case and what must come of it."""
    os.makedirs(folder)
    for file, content in ('reference.fa', fasta), ('variants.vcf', vcf), ('name', name.encode()):
        with open(os.path.join(folder, file), 'wb') as out:
            out.write(content)
    wanted = {}
    try:
        stretches, lines = pooled(fasta, name.encode(), vcf)
        wanted['lines'] = lines.encode()
        for number, stretch in enumerate(stretches, 1):
            wanted[f'wanted.{number:05}'] = stretch
    except Wrong as wrong:
        file = {'fa': 'reference.fa', 'vcf': 'variants.vcf'}[wrong.file] + (f', line {wrong.line}' if wrong.line else '')
        wanted['words'] = f'{file}\n{WORDS[wrong.what]}\n'.encode()
    for file, content in wanted.items():
        with open(os.path.join(folder, file), 'wb') as out:
            out.write(content)
    return wanted


def sample(most):
    """A chromosome's name, its bases and its records."""
    name = random.choice(['chr7', '7', 'x'])
    bases = drawn(random.randint(1, most), random.choice(['ACGT', 'ACGTN', 'A', 'AC']))
    return name, bases, records_in(bases, random.choice([0, 3, 50, 2000]))


def make_texts(folder, number):
    for i in range(number):
        name, bases, records = sample(random.choice([1, 5, 60, 3000, 100000]))
        store(f'{folder}/{i:03}', fasta_of(name, bases).encode(), name, vcf_of(name, records).encode())


def spoilt(bases, records):
    """One record with one thing wrong."""
    k = random.randrange(len(records))
    at, ref, alts = records[k]
    wrong = random.choice([
        (at, ref, alts + [random.choice(['', '<DEL>', '*', 'A[x:1[', 'R', '.', 'A-'])]),
        (at, ref, alts + [ref.lower()]),
        (at, ref, alts + alts[:1] + [ref]),
        (at, '', alts), (at, ref[:-1] + 'R', alts), (-1, ref, alts), (2147483647, ref, alts), (at + len(bases), ref, alts),
        (at, {'A': 'C'}.get(ref[0], 'A') + ref[1:], []),
        (at, ref, ['A' * i for i in range(1, 256) if 'A' * i != ref] + ['C' * i for i in range(1, 3)]),
        (at, ref, ['G' * 40000]),
        (max(at - 9, 0), bases[max(at - 9, 0):at + 1], []),
        (at, bases[at:] + 'A', []),
    ])
    return records[:k] + [wrong] + records[k + 1:]


def make_wrong(folder, number):
    for i in range(number):
        name, bases, records = sample(random.choice([60, 3000, 50000]))
        records = records or [(0, bases[0], [])]
        fasta, vcf = fasta_of(name, bases), vcf_of(name, spoilt(bases, records) if i % 8 > 1 else records)
        if i % 8 == 0:
            fasta = random.choice([fasta[1:], fasta.replace('>' + name, '>z' + name), fasta.replace('A', 'R'), fasta.replace('C', '>'), ''])
        if i % 8 == 1:
            vcf = random.choice([vcf[1:], vcf.replace('\tPASS\tAC=1', ''), vcf.replace('\n' + name + '\t', '\nz\t'), '\n' + vcf,
                                 vcf.replace('\tPASS', '\tPASS\tx', 1)])
        store(f'{folder}/{i:03}', fasta.encode(), name, vcf.encode())


def opposite(word):
    return word[::-1].translate(bytes.maketrans(b'ACGT', b'TGCA'))


def make_haplotypes(folder, number):
    for i in range(number):
        bases = drawn(random.randint(8, 60))
        records = records_in(bases, 8)[:6]
        if i % 10 == 0:  # a long run of bases in front, so that the records stand around the cut of the first stretch
            before = drawn(32763 - random.randint(0, 40))
            bases, records = before + bases, [(at + len(before), ref, alts) for at, ref, alts in records]
        wanted = store(f'{folder}/{i:03}', fasta_of('c', bases).encode(), 'c', vcf_of('c', records, False).encode())
        assert 'lines' in wanted
        whole = [h for h in haplotypes(bases.encode(), {at: [a.encode() for a in [ref] + alts] for at, ref, alts in records})]
        patterns = []
        for k in range(24):
            hap, length = random.choice(whole)[-100:].decode(), random.randint(1, 14)
            at = random.randrange(len(hap))
            pattern = hap[at:at + length] if k % 3 else drawn(length)
            patterns.append(pattern.replace('N', 'A'))
        with open(f'{folder}/{i:03}/list', 'w', encoding='ascii') as out:
            out.writelines(f'{k} {pattern}\n' for k, pattern in enumerate(patterns))
        with open(f'{folder}/{i:03}/verdicts', 'w', encoding='ascii') as out:
            for k, pattern in enumerate(patterns):
                word = pattern.encode()
                held = any(word in hap or opposite(word) in hap for hap in whole)
                out.write(f'{k} {"held" if held else "clear"}\n')


def make_real(folder, data):
    """Each chromosome of each variant file, over a reference that has what its records say, if that is short enough; each sequence."""
    files = [os.path.join(where, file) for where, _, there in os.walk(data) for file in there]
    number = 0
    for file in sorted(file for file in files if file.endswith('.vcf')):
        with open(file, 'rb') as source:
            vcf = source.read().replace(b'length=', b'len=')  # the references here are as short as the records let them be
        names = {line.split(b'\t')[0] for line in vcf.split(b'\n') if line and not line.startswith(b'#')}
        for name in sorted(names)[:8]:
            bases = bytearray()
            for line in vcf.split(b'\n'):
                fields = line.split(b'\t')
                if fields[0] == name and len(fields) > 7 and fields[1].isdigit() and int(fields[1]) < 3000000:
                    end = int(fields[1]) - 1 + len(fields[3])
                    bases.extend(b'N' * (end - len(bases)))
                    bases[max(int(fields[1]) - 1, 0):end] = fields[3]
            store(f'{folder}/{number:03}', b'>' + name + b'\n' + bytes(bases) + b'A\n', name.decode(), vcf)
            number += 1
    for file in sorted(file for file in files if file.endswith('.fa')):
        with open(file, 'rb') as source:
            fasta = source.read()
        names = [line[1:].split()[0] for line in fasta.split(b'\n') if line.startswith(b'>') and line[1:].split()]
        for name in names[:8]:
            store(f'{folder}/{number:03}', fasta, name.decode(), b'##fileformat=VCFv4.3\n')
            number += 1


def main():
    what, folder, last = sys.argv[1:]
    random.seed(what)
    os.makedirs(folder)
    {'texts': make_texts, 'wrong': make_wrong, 'haplotypes': make_haplotypes, 'real': make_real}[what](
        folder, int(last) if last.isdigit() else last)


main()
