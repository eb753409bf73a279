"""The page on which a reader steps through what the timed machine does, of listings of blocks."""
import base64
import hashlib
import re
from html import escape
from pathlib import Path

from lanes import HEIGHT, TOP, Chart
from language import kind_of
from layers import Drawing

MOST = 60           # operations of a graph that is drawn
PARTS = Path(__file__).resolve().with_name("steps")


def part(name):
    return (PARTS / name).read_text("utf-8")


def source_of(block):
    """The block's operations, each marked by where it is issued."""
    places = {operation.number: operation.place() for operation in block.operations}
    return "".join(f'<li value="{k}" data-op="{places.get(k, "")}">{escape(text)}</li>'
                   for k, text in sorted(block.source.items()))


def dim_of(block):
    """What it means that operations of the block are dim, where some are."""
    issued = {operation.number for operation in block.operations}
    return "" if issued >= {*block.source} else '<p class="dim">Dim: no row is known to issue it.</p>'


def drawing_of(block):
    """The dependence graph; edges for which rows come too early stand out."""
    cycles = {operation.number: operation.cycle for operation in block.operations}
    early = {(i, j) for i, j, d in block.edges
             if block.is_wrong() and i in cycles and j in cycles and cycles[j] < cycles[i] + d}
    opcodes = [block.source[k].split()[0] for k in range(len(block.source))]
    places = {operation.number: operation.place() for operation in block.operations}
    drawing = Drawing([f"{k} {opcode}" for k, opcode in enumerate(opcodes)], block.edges)
    kinds = [*map(kind_of, opcodes)]
    return drawing.picture(f"dependence graph of block {block.number}", kinds, places, block.chain, early)


def graph_of(block):
    if not block.edges:
        return ""
    if len(block.source) > MOST:
        return f"<p>Its graph isn't drawn: it has more than {MOST} operations.</p>"
    return ('<div class="panel graph"><h2>What waits for what</h2><div class="scroll" tabindex="0" role="group" '
            f'aria-label="the graph">{drawing_of(block)}</div></div>')


def candidate_of(operations, text):
    """An operation that is ready, of these by number, with its priority; `+N` for so many more."""
    number, _, priority = text.partition(":")
    if not priority:
        return f"<li>and {number[1:]} more</li>"
    found = operations.get(int(number))
    place = f' data-op="{found.place()}"' if found else ""
    return f'<li{place}>{number} {escape(found.source if found else "")} <b>{priority}</b></li>'


def turn_of(operations, turn):
    """What is ready in a cycle, or in several, of these operations by number, and what comes next."""
    candidates = [] if turn["ready"] == "-" else turn["ready"].split(",")
    ready = "".join(candidate_of(operations, candidate) for candidate in candidates)
    what, how, where = turn["next"].split() if turn["next"] != "-" else ("", "", "")
    comings = {"held": f"{where} keeps {what} out", "at": f"next {what}, in cycle {where}"}
    comes = comings.get(how, "nothing comes later")
    return (f'<li data-first="{turn["first"]}" data-last="{turn["last"] or turn["first"]}" hidden>'
            f"<ol>{ready or '<li>nothing</li>'}</ol><p>{comes}</p></li>")


def ready_of(block):
    if not block.turns:
        return ""
    operations = {operation.number: operation for operation in block.operations}
    turns = "".join(turn_of(operations, turn) for turn in block.turns)
    return f'<div class="panel ready"><h2>Ready, by priority</h2><ul>{turns}</ul></div>'


def said_of(block):
    """What is said of the rows, in which a row leads to its cycle."""
    lines = (re.sub(r"\b[Rr]ow (\d+)", rf'<a href="#{block.number}.\1">\g<0></a>', escape(line)) for line in block.said)
    return "".join(f"<li>{line}</li>" for line in lines)


def section(block):
    chart = Chart(block, block.shown)
    return part("section.html").format(
        number=block.number, title=escape(chart.title()), said=said_of(block), judged="wrong" if block.is_wrong()
        else "", last=block.last(), top=TOP, height=HEIGHT, source=source_of(block), dim=dim_of(block),
        timeline=chart.picture(), ready=ready_of(block), graph=graph_of(block), trace=escape("\n".join(block.trace)))


def drawn(blocks):
    script = part("script.js")
    links = " ".join(f'<a href="#{block.number}.0">{block.number} {escape(block.name)}</a>' for block in blocks)
    digest = base64.b64encode(hashlib.sha256(script.encode()).digest()).decode()
    return part("page.html").format(digest=digest, style=part("style.css"), script=script,
                                    links=f"<nav>{links}</nav>" if len(blocks) > 1 else "",
                                    sections="".join(map(section, blocks)))
