"""What `build` is to answer of a window and a variant file, from the documents alone: request 6, docs/RULES.md and docs/FORMAT.md."""
import os
import sys

sys.dont_write_bytecode = True
sys.path.insert(0, os.path.join(os.path.dirname(os.path.abspath(__file__)), '..', 'pool'))
from reference import LETTERS, MOST, stretch_of  # noqa: E402

HEADING = b'##fileformat=VCFv4.'
LAST = 2147483647


class Refused(Exception):
    """A refusal: its number and place."""

    def __init__(self, number, place):
        super().__init__(number, place)
        self.number, self.place = number, place


def lines_of(file):
    """The lines, each with its number from 1 on."""
    lines = file.split(b'\n')
    return enumerate(lines if lines[-1] else lines[:-1], 1)


def is_allele(word):
    return word != b'' and all(byte in LETTERS for byte in word)


def record_of(line, name):
    """POS and the alleles of a record, REF first; None where it is no record of that chromosome."""
    fields = line.split(b'\t')
    if len(fields) < 8 or fields[0] != name:
        return None
    pos, ref, alt = fields[1], fields[3], fields[4]
    alleles = [ref] + ([] if alt == b'.' else alt.split(b','))
    if not pos.isdigit() or not 1 <= int(pos) <= LAST or len(alleles) > 255 or not all(map(is_allele, alleles)):
        return None
    return int(pos), [allele.upper() for allele in alleles]


def records_of(file, window, first, name):
    """The records in the window: how many of its bases stand before each, and its alleles."""
    records, free, end = [], 1, first + len(window)
    for number, line in lines_of(file):
        if line.startswith(b'#'):
            continue
        record = record_of(line, name)
        if record is None or record[0] < free:
            raise Refused(19, number)
        at, alleles = record
        free = at + len(alleles[0])
        if window == b'' or free <= first or end <= at:
            continue
        if at < first or end < free or window[at - first:free - first].upper() != alleles[0]:
            raise Refused(19, number)
        records.append((at - first, alleles))
    return records


def segments_of(window, records):
    """Bases before, between and after records, where there are any, and each record."""
    segments, base = [], 0
    for at, alleles in records:
        segments += [[window[base:at].upper()]] if base < at else []
        segments.append(alleles)
        base = at + len(alleles[0])
    return segments + ([[window[base:].upper()]] if base < len(window) else [])


def size_of(segments):
    return 2 + sum(1 + sum(2 + len(variant) for variant in variants) for variants in segments)


def repeated_in(segments):
    """The number of the first variant that its segment has already, over the whole text; None where there is none."""
    number = 0
    for variants in segments:
        for k, variant in enumerate(variants):
            if variant in variants[:k]:
                return number
            number += 1
    return None


def built(file, window, first, name, room):
    """The stretch, or Refused."""
    if first == 0 or window and first + len(window) - 1 > LAST:
        raise Refused(28, 0)
    if not file.startswith(HEADING):
        raise Refused(18, 0)
    for place, byte in enumerate(window):
        if byte not in LETTERS:
            raise Refused(7, place)
    segments = segments_of(window, records_of(file, window, first, name))
    if size_of(segments) > MOST:
        raise Refused(4, 0)
    repeated = repeated_in(segments)
    if repeated is not None:
        raise Refused(8, repeated)
    stretch = stretch_of(segments)
    if room < len(stretch):
        raise Refused(15, 0)
    return stretch
