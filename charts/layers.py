"""A dependence graph in layers: an operation is below all that it waits for."""
from math import fsum

import svg
from listing import CHAIN, COLOURS, WRONG

HEIGHT, LAYER, GAP, MARGIN = 22, 52, 14, 10
SWEEPS = 24         # more don't change the blocks of sixty operations that were tried


def layered(count, edges):
    """The layers of nodes, and by edge the nodes that it passes. A node is an operation's number, or a place in a layer
    through which a longer edge goes."""
    depth = [0] * count
    for i, j, _ in sorted(edges, key=lambda edge: edge[1]):
        depth[j] = max(depth[j], depth[i] + 1)
    layers = [[i for i in range(count) if depth[i] == level] for level in range(max(depth) + 1)]
    paths = {(i, j): [i, *((i, j, level) for level in range(depth[i] + 1, depth[j])), j] for i, j, _ in edges}
    for path in paths.values():
        for place in path[1:-1]:
            layers[place[2]].append(place)
    return layers, paths


def placed(layers, paths, widths):
    """By node its middle. A sweep sorts and moves each layer by what its nodes are linked to in the layer before."""
    links = [pair for path in paths.values() for pair in zip(path, path[1:])]
    x = {node: 60.0 * k for layer in layers for k, node in enumerate(layer)}
    for sweep in range(SWEEPS):
        near = {}
        for i, j in links:
            near.setdefault(i if sweep % 2 else j, []).append(j if sweep % 2 else i)
        for layer in layers[::-1] if sweep % 2 else layers:
            wanted = {node: fsum(x[n] for n in near[node]) / len(near[node]) if node in near else x[node]
                      for node in layer}
            layer.sort(key=wanted.get)
            x.update(spread(layer, wanted, widths))
    return x


def spread(layer, wanted, widths):
    """Near where the nodes are wanted, in this order: halfway between as far right and as far left as they are
    pushed."""
    apart = [(widths.get(a, 0) + widths.get(b, 0)) / 2 + GAP for a, b in zip(layer, layer[1:])]
    right, left = ([wanted[node] for node in layer] for _ in range(2))
    for k, least in enumerate(apart):
        right[k + 1] = max(right[k + 1], right[k] + least)
    for k, least in reversed([*enumerate(apart)]):
        left[k] = min(left[k], left[k + 1] - least)
    return {node: (a + b) / 2 for node, a, b in zip(layer, right, left)}


def implied(count, edges):
    """The edges beside which a chain of others takes at least as long."""
    longest, into = {}, [[(i, d) for i, k, d in edges if k == j] for j in range(count)]
    for j in range(count):
        chains = [(h, longest[h, i] + d) for i, d in into[j] for h in range(i) if (h, i) in longest]
        yield from ((i, j, d) for i, d in into[j] if any(h == i and length >= d for h, length in chains))
        for h, length in chains + into[j]:
            longest[h, j] = max(longest.get((h, j), 0), length)


class Drawing:
    """Boxes with these labels, and the edges between them."""

    def __init__(self, labels, edges):
        self.labels, self.edges = labels, edges
        self.widths = {k: svg.width_of(label) + 12 for k, label in enumerate(labels)}
        self.layers, self.paths = layered(len(labels), edges)
        x = placed(self.layers, self.paths, self.widths)
        left = min(x[k] - self.widths.get(k, 0) / 2 for k in x) - MARGIN
        self.at = {node: (x[node] - left, MARGIN + LAYER * level)
                   for level, layer in enumerate(self.layers) for node in layer}

    def links(self, chain, early):
        """The edges; those of the chain and those that come too early stand out, and implied ones are faint."""
        chained, faint = {*zip(chain, chain[1:])}, {*implied(len(self.labels), self.edges)}
        for edge in sorted(self.edges, key=lambda edge: edge not in faint):
            colour = WRONG if edge[:2] in early else CHAIN if edge[:2] in chained else svg.INK
            yield link(*edge, [self.at[node] for node in self.paths[edge[:2]]], colour,
                       edge in faint and colour == svg.INK)

    def boxes(self, kinds, places, chain):
        """The operations, marked by where they are issued."""
        for k, label in enumerate(self.labels):
            (x, y), width = self.at[k], self.widths[k]
            outline = {"stroke": CHAIN, "stroke_width": 2} if k in chain else {}
            box = svg.rectangle(x - width / 2, y, width, HEIGHT, COLOURS[kinds[k]], class_="box", **outline)
            yield svg.group(label, box, svg.text(x, y + 15, label, "on", text_anchor="middle"),
                            data_op=places.get(k, ""))

    def picture(self, title, kinds, places, chain, early):
        right = max(self.at[k][0] + self.widths.get(k, 0) / 2 for k in self.at) + MARGIN
        parts = [*self.links(chain, early), *self.boxes(kinds, places, chain)]
        return svg.picture(right, MARGIN * 2 + LAYER * (len(self.layers) - 1) + HEIGHT, title, parts)


def link(i, j, delay, points, colour, is_faint):
    """A curve from the bottom of the first box to the top of the last; a faint one without its delay."""
    (x, y), *rest = [(x, y + HEIGHT / 2) for x, y in points]
    y, rest[-1] = y + HEIGHT / 2, (rest[-1][0], rest[-1][1] - HEIGHT / 2)
    # The delay is on the curve, where those that start or end together are apart.
    number = svg.text(x + 0.28 * (rest[0][0] - x) + 3, y + 0.38 * (rest[0][1] - y) + 4, str(delay), "ink delay")
    path = f"M{svg.number(x)} {svg.number(y)}"
    for to_x, to_y in rest:
        path += "C" + " ".join(map(svg.number, (x, (y + to_y) / 2, to_x, (y + to_y) / 2, to_x, to_y)))
        x, y = to_x, to_y
    curve = svg.element("path", d=path, fill="none", stroke=colour, stroke_width=1 if colour == svg.INK else 2.5,
                        stroke_opacity=0.35 if is_faint else 1)
    return svg.group(f"{j} waits {delay} for {i}", curve, *([] if is_faint else [number]))
