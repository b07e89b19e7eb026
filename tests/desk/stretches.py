"""Texts for the tests of ./desk: each argument NAME=TEXT writes the file NAME, the stretch of a text such as '{TTACG,TTAGG}{,C}'.
With 'manifest NAME FILE...' it writes the manifest NAME of these stretches, which lie in its folder, as docs/FORMAT.md has it.
With 'cuts FOLDER NUMBER' it writes that many drawn texts: whole, and cut after every segment and at some places, with the manifests
FOLDER/N.whole and FOLDER/N.cut-M, and a list of sequences that are spelt by them, some on the opposite strand, in FOLDER/N.list."""
import hashlib
import os
import random
import re
import sys


def stretch(segments):
    out = len(segments).to_bytes(2, "little")
    for variants in segments:
        out += bytes([len(variants)])
        for variant in variants:
            out += len(variant).to_bytes(2, "little") + variant.encode()
    return out


def write(name, data):
    with open(name, "wb") as file:
        file.write(data)


def digest(data):
    return hashlib.blake2b(data, digest_size=32).hexdigest()


def manifest(name, files):
    folder = os.path.dirname(name)
    lines, segments, size = "# cerantuh text 1\n# made by a test\n", 0, 0
    for file in files:
        with open(os.path.join(folder, file), "rb") as opened:
            data = opened.read()
        lines += f"{digest(data)}  {file}\n"
        segments, size = segments + int.from_bytes(data[:2], "little"), size + len(data)
    lines += f"# stretches {len(files)}, segments {segments}, bytes {size}\n"
    write(name, (lines + f"# digest {digest(lines.encode())}\n").encode())


def segments_of(text):
    return [part.split(",") for part in re.findall(r"\{([^}]*)\}", text)]


def drawn():
    segments = []
    for _ in range(random.randrange(2, 12)):
        variants = {"".join(random.choice("AC") for _ in range(random.choice((0, 0, 1, 2, 3)))) for _ in range(random.randrange(1, 4))}
        segments.append(sorted(variants))
    return segments


def opposite(sequence):
    return sequence[::-1].translate(str.maketrans("ACGT", "TGCA"))


def cuts(folder, number):
    random.seed(15)
    for n in range(number):
        segments = drawn()
        spelt = "".join(random.choice(variants) for variants in segments) or "A"
        with open(f"{folder}/{n}.list", "w") as file:
            for label in range(4):
                first = random.randrange(len(spelt))
                sequence = spelt[first : first + random.randrange(1, 7)]
                file.write(f"{label} {opposite(sequence) if label % 2 else sequence}\n")
        ways = [[0, len(segments)], list(range(len(segments) + 1))]
        ways += [[0, k, len(segments)] for k in range(1, len(segments))]
        for m, way in enumerate(ways):
            names = []
            for k, (a, b) in enumerate(zip(way, way[1:])):
                names.append(f"{n}-{m}-{k}")
                write(f"{folder}/{names[-1]}", stretch(segments[a:b]))
            manifest(f"{folder}/{n}.whole" if m == 0 else f"{folder}/{n}.cut-{m}", names)


if sys.argv[1] == "cuts":
    os.makedirs(sys.argv[2], exist_ok=True)
    cuts(sys.argv[2], int(sys.argv[3]))
elif sys.argv[1] == "manifest":
    manifest(sys.argv[2], sys.argv[3:])
else:
    for argument in sys.argv[1:]:
        name, text = argument.split("=", 1)
        write(name, stretch(segments_of(text)))
