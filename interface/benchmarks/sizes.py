#!/usr/bin/env python3
"""What the calls of the proved table cost on cards of several sizes, from run-benchmarks' cells (standard input): prints the section
of docs/PERFORMANCE.md that shows the picture, and for the table of bounds cells of one size beside another.

    sizes.py --cells          an opening of the largest card, and beside it one of 600 nodes for each of its nodes
    sizes.py --picture FILE   the section, and the picture (SVG): instructions against N, both scales logarithmic"""
import math
import sys

ROWS = ["find, key held", "start of an insert", "store of a plan in hand", "insert, whole", "opening", "formatting, whole"]
COLOURS = ["#4a7fb0", "#c0492f", "#5d9a48", "#8a5aa8", "#222222", "#b58a1b"]
SECTION = """
### Cost against N

Instructions of a call of the proved table, random keys. A find, a start and a step go by the depth alone; an opening and a
formatting read or write all of the card.

![Instructions of the calls against the number of nodes](sizes.svg)"""


def read_cells(lines):
    """row -> nodes -> instructions"""
    rows = {}
    for line in lines:
        section, row, nodes, column, number, _ = line.rstrip("\n").split("\t")
        if section == "calls" and column == "proved" and nodes.isdigit():
            rows.setdefault(row, {})[int(nodes)] = float(number)
    return rows


def print_cells(rows):
    opening = rows["opening"]
    largest = max(opening)
    print(f"sizes\topening, beside that of 600 nodes\t{largest}\tproved\t{opening[largest]}\t")
    print(f"sizes\topening, beside that of 600 nodes\t{largest}\topening of 600\t{opening[600]}\t")


# ---- The picture

WIDTH, HEIGHT = 900, 470
LEFT, TOP, RIGHT, BOTTOM = 80, 60, 690, 420
STYLE = """text { font-family: Helvetica, Arial, sans-serif; font-size: 12px; fill: #222 }
.title { font-size: 17px; font-weight: bold }
.number { font-size: 11px; fill: #555 }
.right { text-anchor: end }
.middle { text-anchor: middle }
.grid { stroke: #e4e4e4 }
.axis { stroke: #555 }"""


def picture(rows):
    shown = [(row, COLOURS[i], sorted(rows[row].items())) for i, row in enumerate(ROWS) if row in rows]
    sizes = sorted({nodes for _, _, points in shown for nodes, _ in points})
    top = math.ceil(math.log10(max(number for _, _, points in shown for _, number in points)))
    first, last = math.log(sizes[0]), math.log(sizes[-1])

    def x(nodes):
        return LEFT + (math.log(nodes) - first) / (last - first) * (RIGHT - LEFT)

    def y(number):
        return BOTTOM - (math.log10(number) - 1) / (top - 1) * (BOTTOM - TOP)

    out = [f'<svg xmlns="http://www.w3.org/2000/svg" viewBox="0 0 {WIDTH} {HEIGHT}" width="{WIDTH}" height="{HEIGHT}">',
           f"<style>{STYLE}</style>", f'<path fill="#fff" d="M0 0h{WIDTH}v{HEIGHT}H0z"/>',
           '<text x="16" y="28" class="title">Instructions of a call against the nodes of the card</text>']
    for power in range(1, top + 1):
        level = y(10 ** power)
        out.append(f'<path class="grid" d="M{LEFT} {level:.1f}H{RIGHT}"/>')
        out.append(f'<text x="{LEFT - 6}" y="{level + 4:.1f}" class="number right">{10 ** power:,}</text>')
    for nodes in sizes:
        out.append(f'<path class="axis" d="M{x(nodes):.1f} {BOTTOM}v5"/>')
        out.append(f'<text x="{x(nodes):.1f}" y="{BOTTOM + 18}" class="number middle">{nodes:,}</text>')
    out.append(f'<path class="axis" d="M{LEFT} {BOTTOM}H{RIGHT}"/>')
    out.append(f'<text x="{(LEFT + RIGHT) / 2:g}" y="{BOTTOM + 38}" class="middle">N, the nodes of the card</text>')
    for row, colour, points in shown:
        path = "L".join(f"{x(nodes):.1f} {y(number):.1f}" for nodes, number in points)
        out.append(f'<path fill="none" stroke="{colour}" stroke-width="2" d="M{path}"/>')
        out += [f'<circle cx="{x(nodes):.1f}" cy="{y(number):.1f}" r="3" fill="{colour}"/>' for nodes, number in points]
        nodes, number = points[-1]
        out.append(f'<text x="{RIGHT + 10}" y="{y(number) + 4:.1f}" style="fill:{colour}">{row}: {number:,.0f}</text>')
    return "\n".join(out + ["</svg>"]) + "\n"


def main(arguments):
    if arguments[:1] == ["--picture"] and len(arguments) == 2 or arguments == ["--cells"]:
        rows = read_cells(sys.stdin)
    else:
        sys.exit(__doc__)
    if arguments == ["--cells"]:
        print_cells(rows)
        return
    print(SECTION)
    with open(arguments[1], "w", encoding="utf-8") as file:
        file.write(picture(rows))


main(sys.argv[1:])
