"""What ./pool --unended is to write, from the documents alone: request 6, docs/FORMAT.md and the formats FASTA and VCF. Whole files, no
pieces."""

MOST = 32768
LETTERS = b'ACGTNacgtn'


class Wrong(Exception):
    """What cannot be built: the file, its line or 0, and what is wrong."""

    def __init__(self, file, line, what):
        super().__init__(file, line, what)
        self.file, self.line, self.what = file, line, what


def sequence_of(name, fasta):
    """The bases of the sequence of that name."""
    if not fasta.startswith(b'>'):
        raise Wrong('fa', 0, 'FASTA')
    bases, inside = [], False
    for number, line in enumerate(fasta.split(b'\n'), 1):
        if line.startswith(b'>'):
            if inside:
                break
            word = line[1:].replace(b'\r', b' ').replace(b'\t', b' ').split(b' ')[0]
            inside = word == name
        elif inside:
            if line.endswith(b'\r'):
                line = line[:-1]
            if any(byte not in LETTERS for byte in line):
                raise Wrong('fa', number, 'letter')
            bases.append(line)
    if not bases and not inside:
        raise Wrong('fa', 0, 'name')
    return b''.join(bases).upper()


def record_of(fields):
    """POS and the alleles of a record, or what is wrong with it."""
    pos, ref, alt = fields[1], fields[3], fields[4]
    if not pos.isdigit() or not 1 <= int(pos) <= 2147483647 or int(pos) + len(ref) - 1 > 2147483647:
        raise ValueError('POS')
    if not ref:
        raise ValueError('REF is empty')
    if any(byte not in LETTERS for byte in ref):
        raise ValueError('REF')
    alleles = [] if alt == b'.' else alt.split(b',')
    if len(alleles) > 254 or any(not allele or any(byte not in LETTERS for byte in allele) for allele in alleles):
        raise ValueError('ALT')
    alleles = [allele.upper() for allele in [ref] + alleles]
    if 3 + sum(2 + len(allele) for allele in alleles) > MOST:
        raise ValueError('long')
    if len(set(alleles)) < len(alleles):
        raise ValueError('equal')
    return int(pos), alleles


def records_of(name, bases, vcf):
    """The records of the chromosome by their start from 0, in order, and how many others there are."""
    if not vcf.startswith(b'##fileformat=VCFv4.'):
        raise Wrong('vcf', 0, 'VCF')
    lines = vcf.split(b'\n')
    if lines[-1] == b'':
        lines.pop()
    records, others, end, columns = {}, 0, 0, 0
    for number, line in enumerate(lines, 1):
        fields = line.split(b'\t')
        if line.startswith(b'#CHROM'):
            columns = len(fields)
        if line.startswith(b'#'):
            continue
        if len(fields) < 8:
            raise Wrong('vcf', number, 'fields')
        columns = columns or len(fields)
        if len(fields) != columns:
            raise Wrong('vcf', number, 'columns')
        if fields[0] != name:
            others += 1
            continue
        try:
            pos, alleles = record_of(fields)
        except ValueError as wrong:
            raise Wrong('vcf', number, str(wrong)) from None
        start = pos - 1
        if start < end:
            raise Wrong('vcf', number, 'order')
        end = start + len(alleles[0])
        if end > len(bases):
            raise Wrong('vcf', number, 'beyond')
        if bases[start:end] != alleles[0]:
            raise Wrong('vcf', number, 'reference')
        records[start] = alleles
    if others and not records:
        raise Wrong('vcf', 0, 'chromosome')
    return records, others


def window_end(start, bases, records):
    """Where the window from `start` ends: as far on as a stretch holds it, with no record across."""
    at, end, size, gap = start, start, 2, False
    while at < len(bases):
        if at in records:
            size += 1 + sum(2 + len(allele) for allele in records[at])
            at += len(records[at][0])
            gap = False
        else:
            size += 1 if gap else 4
            at += 1
            gap = True
        if size > MOST:
            return end
        end = at
    return end


def segments_of(start, end, bases, records):
    """The segments of a window: bases between records, and each record with REF and then ALT in order."""
    at, gap, segments = start, start, []
    while at < end:
        if at in records:
            if gap < at:
                segments.append([bases[gap:at]])
            segments.append(records[at])
            at += len(records[at][0])
            gap = at
        else:
            at += 1
    return segments + ([[bases[gap:end]]] if gap < end else [])


def stretch_of(segments):
    """The bytes of docs/FORMAT.md."""
    out = len(segments).to_bytes(2, 'little')
    for variants in segments:
        out += bytes([len(variants)])
        for variant in variants:
            out += len(variant).to_bytes(2, 'little') + variant
    return out


def pooled(fasta, name, vcf):
    """The stretches of the chromosome, and the program's lines; or Wrong."""
    bases = sequence_of(name, fasta)
    records, others = records_of(name, bases, vcf)
    if not bases:
        raise Wrong('fa', 0, 'no base')
    stretches, start = [], 0
    while start < len(bases):
        end = window_end(start, bases, records)
        stretches.append(stretch_of(segments_of(start, end, bases, records)))
        start = end
    lines = f'stretches {len(stretches)}\nbases {len(bases)}\nrecords {len(records)}\nothers {others}\n'
    return stretches, lines


def haplotypes(bases, records):
    """Every haplotype that the records allow: REF or one ALT at each."""
    starts, found, at = sorted(records), [b''], 0
    for start in starts:
        found = [whole + bases[at:start] + allele for whole in found for allele in records[start]]
        at = start + len(records[start][0])
    return [whole + bases[at:] for whole in found]
