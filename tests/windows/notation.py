"""The lines of crates/test_windows/stdin: build FILE WINDOW first NAME room STRETCH, and after = the number of bytes that are written, or
after ! the number and the place of the refusal. The first lines there say how each word is written."""
import re

from built import HEADING, Refused, built, stretch_of


def bytes_in(word):
    """Raw bytes: two hex digits for a byte, a capital letter for itself, at most once (..*n)."""
    word = re.sub(r'\((.*)\*(\d+)\)', lambda found: found[1] * int(found[2]), '' if word == '-' else word)
    return b''.join(char.encode() if char.isupper() else bytes.fromhex(char) for char in re.findall('[A-Z]|..', word))


def file_in(word):
    """A file: after @, which is its heading, _ for a tab and ; for a line feed; or raw bytes."""
    if not word.startswith('@'):
        return bytes_in(word)
    return HEADING + word[1:].translate({ord('_'): '\t', ord(';'): '\n'}).encode()


def stretch_in(word):
    """A stretch: segments in braces, or raw bytes."""
    if not word.startswith('{'):
        return bytes_in(word)
    return stretch_of([[variant.encode() for variant in part.split(',')] for part in re.findall('{(.*?)}', word)])


def bytes_out(data):
    """Raw bytes, the longest run of a letter in parentheses if that is shorter."""
    run = max((found[0] for found in re.finditer(rb'([A-Z])\1{9,}', data)), key=len, default=b'')
    front, middle, back = data.partition(run) if run else (data, b'', b'')
    letters = [''.join(chr(byte) if 65 <= byte <= 90 else f'{byte:02x}' for byte in part) for part in (front, back)]
    return letters[0] + (f'({chr(run[0])}*{len(run)})' if run else '') + letters[1] or '-'


def file_out(file):
    """A file after @ if it can be written so: = and ! would begin the answer, and a space a word."""
    text = file[len(HEADING):].decode('latin-1')
    if not file.startswith(HEADING) or not re.fullmatch(r'[\t\n"-:<>-^`-~]*', text):
        return bytes_out(file)
    return '@' + text.translate({ord('\t'): '_', ord('\n'): ';'})


def stretch_out(stretch):
    """Segments in braces if they can be written so, with no empty variant."""
    if stretch[:2] == b'\0\0' or len(stretch) > 2000:
        return bytes_out(stretch)
    segments, at = [], 2
    while at < len(stretch):
        variants, at = stretch[at], at + 1
        segments.append([])
        for _ in range(variants):
            end = at + 2 + int.from_bytes(stretch[at:at + 2], 'little')
            segments[-1].append(stretch[at + 2:end].decode())
            at = end
    word = ''.join('{' + ','.join(variants) + '}' for variants in segments)
    return word if all(len(variant) < 256 for variants in segments for variant in variants) else bytes_out(stretch)


def example_of(file, window, first, name, room):
    """The line of an example, with the answer of the reference."""
    given = f'build {file_out(file)} {bytes_out(window)} {first} {name.decode() or "-"} {room}'
    try:
        stretch = built(file, window, first, name, room)
    except Refused as refused:
        return f'{given} - ! {refused.number} {refused.place}'
    return f'{given} {stretch_out(stretch)} = {len(stretch)}'


def is_answered(line):
    """Whether the reference answers what the line wants."""
    given, mark, wanted = re.fullmatch('(.*) ([=!]) (.*)', line).groups()
    _, file, window, first, name, room, stretch = given.split(' ')
    try:
        had = built(file_in(file), bytes_in(window), int(first), b'' if name == '-' else name.encode(), int(room))
    except Refused as refused:
        return (mark, wanted, stretch) == ('!', f'{refused.number} {refused.place}', '-')
    return (mark, wanted) == ('=', str(len(had))) and stretch_in(stretch) == had
