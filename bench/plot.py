"""Draws a table as an SVG: plot.py TABLE SVG. The first line names the columns; the first column is bytes, the others are
instructions for each byte, a line each. A column without figures ('-') is left out."""
import sys

WIDTH, HEIGHT, LEFT, RIGHT, TOP, BOTTOM = 720, 420, 60, 130, 40, 50
COLOURS = ["#0b6e4f", "#c1440e", "#5b3f8c", "#555555"]


def read(path):
    with open(path, encoding="ascii") as table:
        rows = [line.split() for line in table]
    names, rows = rows[0], rows[1:]
    sizes = [int(row[0]) for row in rows]
    lines = {name: [float(row[i]) for row in rows] for i, name in enumerate(names) if i > 0 and rows[0][i] != "-"}
    return sizes, lines


def text(x, y, words, anchor="middle", colour="#333333"):
    return f'<text x="{x:.0f}" y="{y:.0f}" text-anchor="{anchor}" fill="{colour}">{words}</text>'


def draw(sizes, lines):
    step = 5
    top = step * (int(max(max(line) for line in lines.values())) // step + 1)
    across = [LEFT + (WIDTH - LEFT - RIGHT) * i / (len(sizes) - 1) for i in range(len(sizes))]

    def up(value):
        return HEIGHT - BOTTOM - (HEIGHT - TOP - BOTTOM) * value / top

    out = [f'<svg xmlns="http://www.w3.org/2000/svg" viewBox="0 0 {WIDTH} {HEIGHT}" font-family="sans-serif" font-size="13">',
           f'<rect width="{WIDTH}" height="{HEIGHT}" fill="white"/>',
           text(WIDTH / 2, 22, "Instructions for each byte of stretch (kg-like, pattern of 32 bases)")]
    for value in range(0, top + 1, step):
        out.append(f'<path d="M{LEFT} {up(value):.1f}H{WIDTH - RIGHT}" stroke="#dddddd"/>')
        out.append(text(LEFT - 8, up(value) + 4, value, "end"))
    for x, size in zip(across, sizes):
        out.append(text(x, HEIGHT - BOTTOM + 20, f"{round(size / 1024)} KB"))
    # names beside the lines' ends, moved apart where they would touch
    lowest = HEIGHT
    for (name, line), colour in sorted(zip(lines.items(), COLOURS), key=lambda each: each[0][1][-1]):
        points = " ".join(f"{x:.1f},{up(value):.1f}" for x, value in zip(across, line))
        out.append(f'<polyline points="{points}" fill="none" stroke="{colour}" stroke-width="2"/>')
        lowest = min(up(line[-1]) + 4, lowest - 16)
        out.append(text(WIDTH - RIGHT + 8, lowest, f"{name} {line[-1]:.1f}", "start", colour))
    return "\n".join(out + ["</svg>", ""])


def main():
    with open(sys.argv[2], "w", encoding="ascii") as picture:
        picture.write(draw(*read(sys.argv[1])))


main()
