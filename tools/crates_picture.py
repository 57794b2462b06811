#!/usr/bin/env python3
"""Writes docs/crates.svg: the crates of crates.txt in layers, with a line from each to those that it stands on.

    tools/crates_picture.py            # writes the picture
    tools/crates_picture.py --check    # only says whether the picture is current; status 1 where it is not

A crate's layer is the longest chain of crates below it. A line that follows from others is left out: where a crate stands on
two, and one of these on the other, there is no line to the lower one. The same crates.txt gives the same picture."""
import pathlib
import random
import re
import sys

TOP = pathlib.Path(__file__).resolve().parent.parent
PICTURE = TOP / "docs" / "crates.svg"
PROGRAM = "bitmat"
SIDE = re.compile(r"bench_|.*_tests$")

WIDTH, MARGIN, LAYER, BOX, GAP = 900, 46, 78, 36, 16
LETTER, PADDING = 7.9, 20
FONT = "ui-monospace, 'DejaVu Sans Mono', Menlo, Consolas, monospace"
COLOURS = {"product": ("#e3edf9", "#2f6096"), "side": ("#f8eed8", "#a67c2a")}
SWEEPS, TRIES = 24, 80


def read_crates():
    """Gives what each crate stands on: crates of the repository, and those of the kit."""
    lines = [line.partition("#")[0].strip() for line in (TOP / "crates.txt").read_text().splitlines()]
    named = {line.partition(":")[0].split()[0]: line.partition(":")[2].split() for line in lines if line}
    below = {name: [lower for lower in under if lower in named] for name, under in named.items()}
    kit = {name: [lower for lower in under if lower not in named] for name, under in named.items()}
    return below, kit


def all_below(below, name):
    found = set()
    for lower in below[name]:
        found |= {lower} | all_below(below, lower)
    return found


def without_implied(below):
    """Leaves out what a crate also stands on by another one."""
    return {
        name: [lower for lower in under if not any(lower in all_below(below, other) for other in under)]
        for name, under in below.items()
    }


class Node:
    """A crate, or a place where a long line passes a layer."""

    def __init__(self, name, layer, width):
        self.name, self.layer, self.width = name, layer, width
        self.up, self.down, self.x = [], [], 0.0


def graph_of(below):
    """The layers of nodes, lowest first, where each line goes from one layer to the next."""
    heights = {}
    def height(name):
        if name not in heights:
            heights[name] = max((height(lower) + 1 for lower in below[name]), default=0)
        return heights[name]
    layers = [[] for _ in range(1 + max(height(name) for name in below))]
    nodes = {}
    for name in sorted(below):
        nodes[name] = Node(name, height(name), len(name) * LETTER + PADDING)
        layers[height(name)].append(nodes[name])
    lines = []
    for name, under in sorted(without_implied(below).items()):
        for lower in sorted(under):
            line = [nodes[lower]]
            for layer in range(height(lower) + 1, height(name)):
                line.append(Node(None, layer, 6))
                layers[layer].append(line[-1])
            line.append(nodes[name])
            for one, next_one in zip(line, line[1:]):
                one.up.append(next_one)
                next_one.down.append(one)
            lines.append(line)
    return layers, lines


def crossings(layers):
    count = 0
    for layer in layers[:-1]:
        place = {node: number for number, node in enumerate(layers[layer[0].layer + 1])}
        ends = [(number, place[up]) for number, node in enumerate(layer) for up in node.up]
        count += sum(a < c and b > d for a, b in ends for c, d in ends)
    return count


def put_in_order(layers):
    """Orders each layer by the middle of its neighbours, and keeps the order with the fewest crossings."""
    best, fewest = [list(layer) for layer in layers], crossings(layers)
    for sweep in range(SWEEPS):
        upward = sweep % 2 == 0
        for layer in layers[1:] if upward else layers[-2::-1]:
            beside = layers[layer[0].layer + (-1 if upward else 1)]
            place = {node: number for number, node in enumerate(beside)}
            middle = {}
            for number, node in enumerate(layer):
                ends = [place[end] for end in (node.down if upward else node.up)]
                middle[node] = sum(ends) / len(ends) if ends else number * len(beside) / len(layer)
            layer.sort(key=lambda node: middle[node])
        if crossings(layers) < fewest:
            best, fewest = [list(layer) for layer in layers], crossings(layers)
    for layer, order in zip(layers, best):
        layer[:] = order


def lay_out(layers):
    """Tries some orders to begin with, always the same, and keeps the one with few crossings and short lines."""
    best, least = None, None
    for seed in range(TRIES):
        for layer in layers:
            layer.sort(key=lambda node: node.name or "")
            random.Random(seed).shuffle(layer)
        put_in_order(layers)
        put_in_place(layers)
        length = sum(abs(node.x - end.x) for layer in layers for node in layer for end in node.up)
        cost = crossings(layers) * 150 + length
        if least is None or cost < least:
            best, least = [[(node, node.x) for node in layer] for layer in layers], cost
    for layer, placed in zip(layers, best):
        layer[:] = [node for node, _ in placed]
        for node, x in placed:
            node.x = x


def spread(layer, wanted):
    """Places a layer as near to the wanted places as its gaps allow (least squares, by pooling neighbours)."""
    offsets = [0.0]
    for left, right in zip(layer, layer[1:]):
        offsets.append(offsets[-1] + (left.width + right.width) / 2 + GAP)
    pools = []
    for node, place, offset in zip(layer, wanted, offsets):
        pools.append([place - offset, 1 if node.name else 4, 1])
        while len(pools) > 1 and pools[-2][0] > pools[-1][0]:
            last, before = pools.pop(), pools.pop()
            total = last[1] + before[1]
            pools.append([(last[0] * last[1] + before[0] * before[1]) / total, total, last[2] + before[2]])
    least = MARGIN + layer[0].width / 2
    most = WIDTH - MARGIN / 2 - layer[-1].width / 2 - offsets[-1]
    starts = [start for start, _, count in pools for _ in range(count)]
    for node, start, offset in zip(layer, starts, offsets):
        node.x = min(max(start, least), max(most, least)) + offset


def weight(node, end):
    """How much a line pulls at its end: the places that a long line passes keep in a row."""
    return {0: 1, 1: 3, 2: 12}[(node.name is None) + (end.name is None)]


def put_in_place(layers):
    for layer in layers:
        spread(layer, [MARGIN + (WIDTH - MARGIN) * (number + 0.5) / len(layer) for number in range(len(layer))])
    for sweep in range(SWEEPS):
        for layer in layers if sweep % 2 else reversed(layers):
            wanted = []
            for node in layer:
                pulls = [(weight(node, end), end.x) for end in node.up + node.down]
                total = sum(pull for pull, _ in pulls)
                wanted.append(sum(pull * x for pull, x in pulls) / total if total else node.x)
            spread(layer, wanted)


def row_of(layers, node):
    return MARGIN / 2 + (len(layers) - 1 - node.layer) * LAYER + BOX / 2


def port(node, ends, end):
    """Where on the edge of a box a line begins: the lines of a box are spread over its middle."""
    if node.name is None or len(ends) == 1:
        return node.x
    place = sorted(ends, key=lambda other: other.x).index(end)
    return node.x + (place / (len(ends) - 1) - 0.5) * min(node.width * 0.6, 22 * (len(ends) - 1))


def path_of(layers, line):
    """A smooth line from the top of the lower box to the bottom of the upper one; it passes other layers upright."""
    text = ""
    for low, high in zip(line, line[1:]):
        x1, x2 = port(low, low.up, high), port(high, high.down, low)
        y1, y2 = row_of(layers, low) - BOX / 2, row_of(layers, high) + BOX / 2
        bend = (y1 - y2) * 0.55
        text += f"{'L' if text else 'M'}{x1:.1f} {y1:.1f} "
        text += f"C{x1:.1f} {y1 - bend:.1f} {x2:.1f} {y2 + bend:.1f} {x2:.1f} {y2:.1f} "
    return text.strip()


def box_of(layers, node, kit, inside):
    fill, stroke = COLOURS["side" if SIDE.match(node.name) else "product"]
    dashes = "" if inside or SIDE.match(node.name) else ' stroke-dasharray="5 3"'
    y, under = row_of(layers, node), ", ".join(kit)
    out = [
        f'<rect x="{node.x - node.width / 2:.1f}" y="{y - BOX / 2:.1f}" width="{node.width:.1f}" height="{BOX}" rx="6" '
        f'fill="{fill}" stroke="{stroke}" stroke-width="1.4"{dashes}/>',
        f'<text x="{node.x:.1f}" y="{y + (0 if under else 4.5):.1f}" font-size="13" fill="#12263c">{node.name}</text>',
    ]
    if under:
        out.append(f'<text x="{node.x:.1f}" y="{y + 12.5:.1f}" font-size="9.5" fill="#5d6b7a">{under}</text>')
    return out


def legend(y):
    """What the colours say."""
    out, x = [], MARGIN
    for kind, dashes, words in [
        ("product", "", "part of the program"),
        ("product", ' stroke-dasharray="5 3"', "not yet part of it"),
        ("side", "", "tests and benches"),
    ]:
        fill, stroke = COLOURS[kind]
        out.append(f'<rect x="{x}" y="{y - 11}" width="22" height="14" rx="3" fill="{fill}" stroke="{stroke}"{dashes}/>')
        out.append(f'<text x="{x + 30}" y="{y}" font-size="12" fill="#3c4a59" text-anchor="start">{words}</text>')
        x += 44 + int(len(words) * 7.4)
    out.append(f'<text x="{x}" y="{y}" font-size="9.5" fill="#5d6b7a" text-anchor="start">small: of the kit</text>')
    return out


def picture():
    below, kit = read_crates()
    layers, lines = graph_of(below)
    lay_out(layers)
    inside = {PROGRAM} | all_below(below, PROGRAM)
    height = int(MARGIN / 2 + (len(layers) - 1) * LAYER + BOX + 44)
    out = [
        f'<svg xmlns="http://www.w3.org/2000/svg" viewBox="0 0 {WIDTH} {height}" width="{WIDTH}" height="{height}" '
        f'font-family="{FONT}" text-anchor="middle" role="img" aria-label="The crates in their layers">',
        f'<rect width="{WIDTH}" height="{height}" fill="#ffffff"/>',
    ]
    for number in range(len(layers)):
        y = MARGIN / 2 + (len(layers) - 1 - number) * LAYER + BOX / 2
        out.append(f'<line x1="{MARGIN - 14}" y1="{y}" x2="{WIDTH - 10}" y2="{y}" stroke="#eef1f5"/>')
        out.append(f'<text x="18" y="{y + 4}" font-size="12" fill="#9aa5b1">{number + 1}</text>')
    out += [f'<path d="{path_of(layers, line)}" fill="none" stroke="#7f93a8" stroke-width="1.3"/>' for line in lines]
    for layer in layers:
        for node in layer:
            out += box_of(layers, node, kit[node.name], node.name in inside) if node.name else []
    return "\n".join(out + legend(height - 14) + ["</svg>"]) + "\n"


def main():
    if sys.argv[1:] not in ([], ["--check"]):
        sys.exit(__doc__)
    text = picture()
    if not sys.argv[1:]:
        PICTURE.write_text(text)
    elif not PICTURE.is_file() or PICTURE.read_text() != text:
        sys.exit(f"{PICTURE.relative_to(TOP)} is not current: run tools/crates_picture.py")


if __name__ == "__main__":
    main()
