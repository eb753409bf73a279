"""What the charts share: the parts of an SVG picture, in colours that read on light and on dark ground."""
import html
import itertools
import re

# Lines are on the page's own ground, so they are neither light nor dark; text is one or the other, as the page is.
INK = "#7d8590"
GRID = "#7d859055"
TEXT = {"light": "#59636e", "dark": "#9198a1"}


def dark(selector):
    """The style of texts on a dark page."""
    return f"@media (prefers-color-scheme: dark) {{ {selector} {{ fill: {TEXT['dark']}; }} }}"


# What is written into a filled box.
ON_FILL = "#0b0f14"
STYLE = ("text { font: 12px ui-monospace, 'DejaVu Sans Mono', Menlo, Consolas, monospace; }"
         f" .ink {{ fill: {TEXT['light']}; }} .on {{ fill: {ON_FILL}; }} .head {{ font-weight: bold; }}"
         f" .grid {{ stroke: {GRID}; }} .axis {{ stroke: {INK}; }}"
         f" {dark('.ink')}")
# No letter of the fonts above is wider.
LETTER = 7.4
NO_XML = re.compile("[^\t\n\r -\ud7ff\ue000-\ufffd\U00010000-\U0010ffff]")


class Unread(Exception):
    """A text is no listing that can be drawn."""


def escape(words):
    """Words as XML text, with a mark in place of each character that XML has no way to write."""
    return html.escape(NO_XML.sub("\ufffd", words))


def number(value):
    return f"{value:.1f}".removesuffix(".0")


def element(name, content=None, **attributes):
    """An element; an underscore in an attribute's name stands for a hyphen."""
    texts = {key: value if isinstance(value, str) else number(value) for key, value in attributes.items()}
    given = "".join(f' {key.rstrip("_").replace("_", "-")}="{escape(text)}"' for key, text in texts.items())
    return f"<{name}{given}/>" if content is None else f"<{name}{given}>{content}</{name}>"


def text(x, y, words, kind="ink", **attributes):
    return element("text", escape(words), x=x, y=y, class_=kind, **attributes)


def rectangle(x, y, width, height, fill, **attributes):
    return element("rect", x=x, y=y, width=width, height=height, rx=2, fill=fill, **attributes)


def line(x1, y1, x2, y2, **attributes):
    return element("line", x1=x1, y1=y1, x2=x2, y2=y2, **attributes)


def mark(shape, x, y, colour, size=5):
    """A dot, square, diamond, two triangles or a cross: columns are told apart by shapes too, not by colours alone."""
    half = size - 0.5
    corners = ([(-half, -half), (half, -half), (half, half), (-half, half)],
               [(0, -size), (size, 0), (0, size), (-size, 0)],
               [(0, -size), (size, half), (-size, half)], [(0, size), (size, -half), (-size, -half)],
               [(-half, -half), (0, -1), (half, -half), (1, 0), (half, half), (0, 1), (-half, half), (-1, 0)])
    if shape == 0:
        return element("circle", cx=x, cy=y, r=size, fill=colour)
    points = " ".join(f"{number(x + dx)},{number(y + dy)}" for dx, dy in corners[shape - 1])
    return element("polygon", points=points, fill=colour)


def group(tooltip, *parts, **attributes):
    """Parts with one tooltip."""
    return element("g", element("title", escape(tooltip)) + "".join(parts), **attributes)


def width_of(words):
    return LETTER * len(words)


def step_for(length, parts, power=0):
    """A round number, of which at most so many make this length, from this power of ten on."""
    steps = (digit * 10 ** zeros for zeros in itertools.count(power) for digit in (1, 2, 5))
    return next(step for step in steps if length <= parts * step)


def picture(width, height, title, parts):
    head = (f'<svg xmlns="http://www.w3.org/2000/svg" width="{number(width)}" height="{number(height)}" '
            f'viewBox="0 0 {number(width)} {number(height)}" role="img">')
    return "\n".join([head, element("title", escape(title)), element("style", STYLE), *parts, "</svg>"]) + "\n"
