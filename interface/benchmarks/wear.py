#!/usr/bin/env python3
"""The wear of the cards, from what the program of wear.c prints (standard input).

    wear.py                  the section of docs/PERFORMANCE.md
    wear.py --cells          for the table of bounds: the changed words of the most written node, and the mean of the nodes
    wear.py --picture FILE   the section, and a picture of the cards of 60 nodes (SVG)

The picture has a chart for before and one for after, below it and with the same scales, for each of these cards."""
import sys

PICTURED_NODES = 60
LIMIT = 3  # times the mean; benchmarks/bounds.txt has the bounds

SECTION = """
### Wear

Changed words of a node: stores in it of another word than was there, from the end of formatting on. Before: after formatting \
and after every opening the search for free nodes begins at node 1. After: at the node following the root. Updates and restarts \
are the same. The root's word, which belongs to no node, is changed once for each new root.

| card | N | pairs | nodes in use | updates | restarts (repairs) | new roots | | mean of the nodes | most written node | \
times the mean | nodes never written |
|---|---|---|---|---|---|---|---|---|---|---|---|"""
LINK = "\n![Changed words of each node of the cards of %d nodes, before and after](wear.svg)" % PICTURED_NODES


class Wear:
    """The stores and the changed words of each node, from node 1 on."""

    def __init__(self, name):
        self.name, self.stores, self.changed = name, [], []

    def add(self, stores, changed):
        self.stores.append(int(stores))
        self.changed.append(int(changed))

    def mean(self):
        return sum(self.changed) / len(self.changed)

    def most(self):
        return max(self.changed)

    def most_node(self):
        return 1 + self.changed.index(self.most())

    def times_mean(self):
        return self.most() / self.mean()

    def never_written(self):
        return self.stores.count(0)


class Card:
    def __init__(self, nodes, name, pairs, in_use, updates, restarts, repairs, new_roots):
        self.nodes, self.name, self.pairs, self.in_use = int(nodes), name, float(pairs), float(in_use)
        self.updates, self.restarts, self.repairs, self.new_roots = int(updates), int(restarts), int(repairs), int(new_roots)
        self.before, self.after = Wear("before"), Wear("after")

    def add(self, node, stores_before, changed_before, stores_after, changed_after):
        self.before.add(stores_before, changed_before)
        self.after.add(stores_after, changed_after)
        assert int(node) == len(self.after.stores), "the nodes are not in their order"


def read_cards(lines):
    cards = []
    for line in lines:
        nodes, second, *others = line.rstrip("\n").split("\t")
        if second == "card":
            cards.append(Card(nodes, *others))
        else:
            cards[-1].add(second, *others)
    assert cards and all(len(card.after.stores) == card.nodes for card in cards), "a node is wanting"
    return cards


def grouped(number):
    return f"{number:,.0f}"


def print_section(cards):
    print(SECTION)
    for card in cards:
        same = f"{card.name} | {card.nodes} | {grouped(card.pairs)} | {grouped(card.in_use)} | {grouped(card.updates)} | " \
               f"{grouped(card.restarts)} ({card.repairs}) | {grouped(card.new_roots)}"
        for wear in card.before, card.after:
            print(f"| {same} | {wear.name} | {grouped(wear.mean())} | {grouped(wear.most())} (node {wear.most_node()}) | "
                  f"{wear.times_mean():.2f} | {wear.never_written()} |")
    print(LINK)


def print_cells(cards):
    for card in cards:
        for column, number in ("proved", card.after.most()), ("the mean", card.after.mean()):
            print(f"wear\twear, {card.name}\t{card.nodes}\t{column}\t{number}\t")


# ---- The picture: a column for each card, before above after

WIDTH, HEIGHT = 900, 484
LEFT, COLUMN = 72, 284  # where the first chart stands, and from one to the next
CHART_WIDTH, CHART_HEIGHT = 230, 132
CHART_TOP = {"before": 132, "after": 312}
STYLE = """text { font-family: Helvetica, Arial, sans-serif; font-size: 12px; fill: #222 }
.title { font-size: 17px; font-weight: bold }
.card { font-size: 13px; font-weight: bold }
.number { font-size: 11px; fill: #555 }
.right { text-anchor: end }
.middle { text-anchor: middle }
.grid { stroke: #e4e4e4 }
.axis { stroke: #555 }
.node { fill: #4a7fb0 }
.over { fill: #c0492f }
.mean { stroke: #222; stroke-width: 1.3 }
.limit { stroke: #222; stroke-width: 1.3; stroke-dasharray: 5 3 }"""


def text(x, y, words, kinds=""):
    return f'<text x="{x:g}" y="{y:g}"' + (f' class="{kinds}"' if kinds else "") + f">{words}</text>"


def line(x1, y1, x2, y2, kind):
    return f'<path class="{kind}" d="M{x1:.4g} {y1:.4g}L{x2:.4g} {y2:.4g}"/>'


def tick_step(top):
    """A round number that goes into the scale three to seven times."""
    step = 1
    while top / step > 7:
        step = step * 5 // 2 if str(step)[0] == "2" else step * 2
    return step


def bars(wear, kind, wanted, left, bottom, scale):
    width = CHART_WIDTH / len(wear.changed)
    path = "".join(f"M{left + i * width + 0.3:.1f} {bottom}v-{changed * scale:.1f}h{width - 0.6:.1f}V{bottom}z"
                   for i, changed in enumerate(wear.changed) if changed and wanted(changed))
    return f'<path class="{kind}" d="{path}"/>' if path else ""


def chart(wear, left, top_of_scale):
    top = CHART_TOP[wear.name]
    bottom, right, scale = top + CHART_HEIGHT, left + CHART_WIDTH, CHART_HEIGHT / top_of_scale
    limit = LIMIT * wear.mean()
    heading = f"{wear.name}: most {wear.times_mean():.2f} × mean, {wear.never_written()} never written"
    out = [text(left, top - 8, heading, "number")]
    for tick in range(0, int(top_of_scale) + 1, tick_step(top_of_scale)):
        y = bottom - tick * scale
        out += [line(left, y, right, y, "grid"), text(left - 6, y + 4, grouped(tick), "number right")]
    out += [bars(wear, "node", lambda changed: changed <= limit, left, bottom, scale),
            bars(wear, "over", lambda changed: changed > limit, left, bottom, scale)]
    out += [line(left, bottom - level * scale, right, bottom - level * scale, kind)
            for level, kind in ((wear.mean(), "mean"), (limit, "limit"))]
    out.append(line(left, bottom, right, bottom, "axis"))
    nodes = len(wear.changed)
    for node in [1, *range(10, nodes + 1, 10)]:
        x = left + (node - 0.5) * CHART_WIDTH / nodes
        out += [line(x, bottom, x, bottom + 4, "axis"), text(round(x, 1), bottom + 16, node, "number middle")]
    return out


def legend(x, y):
    return [line(x, y - 4, x + 26, y - 4, "mean"), text(x + 32, y, "mean of the nodes"),
            line(x + 164, y - 4, x + 190, y - 4, "limit"), text(x + 196, y, f"{LIMIT} × the mean"),
            f'<path class="over" d="M{x + 300} {y - 9}h10v10h-10z"/>', text(x + 316, y, "a node above it")]


def picture(cards):
    one = cards[0]
    out = [f'<svg xmlns="http://www.w3.org/2000/svg" viewBox="0 0 {WIDTH} {HEIGHT}" width="{WIDTH}" height="{HEIGHT}">',
           f"<style>{STYLE}</style>", f'<path fill="#fff" d="M0 0h{WIDTH}v{HEIGHT}H0z"/>',
           text(16, 28, f"Wear of a card of {one.nodes} nodes: changed words of each node", "title"),
           text(16, 50, f"{grouped(one.updates)} updates, {grouped(one.restarts)} restarts. At each the search for free nodes "
                        "begins at node 1 (before) or at the node following the root (after).")]
    for i, card in enumerate(cards):
        left = LEFT + i * COLUMN
        out.append(text(left, 106, card.name, "card"))
        top_of_scale = 1.04 * max(max(wear.most(), LIMIT * wear.mean()) for wear in (card.before, card.after))
        out += chart(card.before, left, top_of_scale) + chart(card.after, left, top_of_scale)
        out.append(text(left + CHART_WIDTH / 2, CHART_TOP["after"] + CHART_HEIGHT + 33, "node", "middle"))
    middle = (CHART_TOP["before"] + CHART_TOP["after"] + CHART_HEIGHT) / 2
    out.append(f'<text class="middle" transform="translate(17 {middle:g})rotate(-90)">changed words</text>')
    out += legend(16, 74) + ["</svg>"]
    return "\n".join(part for part in out if part) + "\n"


def main(arguments):
    if arguments[:1] == ["--picture"] and len(arguments) == 2 or arguments in ([], ["--cells"]):
        cards = read_cards(sys.stdin)
    else:
        sys.exit(__doc__)
    if arguments == ["--cells"]:
        print_cells(cards)
        return
    print_section(cards)
    if arguments:
        with open(arguments[1], "w", encoding="utf-8") as file:
            file.write(picture([card for card in cards if card.nodes == PICTURED_NODES]))


main(sys.argv[1:])
