"""Cases of charts/: what is drawn, by the tooltips of the pictures, and the pictures that docs/ shows."""
import random
import re
import time
from xml.etree import ElementTree

import lanes
import stepper
from cases.test_stored import stored_runs
from harness.browser import LEAST_CONTRAST, contrast
from harness.place import Place
from language import USUAL
from listing import CHAIN, WRONG, lines_of
from oracle.drawn import lab_block
from oracle.operations import text_of
from svg import Unread
from traced import read_traces

SVG = "{http://www.w3.org/2000/svg}"
# A stored case, and its listing.
BLOCK, EXPLAINED = stored_runs()["product_and_sum"].given, stored_runs()["product_and_sum.explain"].out
ISSUED = ["loadI 4 => r0: unit 0, issued at 0, arrives at 1", "loadI 8 => r1: unit 1, issued at 0, arrives at 1",
          "load r0 => r3: unit 0, issued at 1, arrives at 6", "mult r0, r1 => r2: unit 1, issued at 1, arrives at 4",
          "add r2, r3 => r4: unit 0, issued at 6, arrives at 7", "store r4 => r1: unit 0, issued at 7, arrives at 12",
          "output 8: unit 0, issued at 12, arrives at 13"]
CHECKED = b"""block 1 sum lawful cycles 14 ours 14 least 13
block 2 dot differs cycles 19 ours 22 least 20 claimed 8
  output 2: 7 for 8
total 33 ours 36 least 33
"""
GROUNDS = "#ffffff", "#0d1117"      # of light pages and dark ones
INKS = re.compile(r"\.ink \{ fill: (#\w{6}); \}.*@media \(prefers-color-scheme: dark\) \{ \.ink \{ fill: (#\w{6}); \}")
DARK_TEXT = re.compile(r"@media \(prefers-color-scheme: dark\) \{ text\[fill='(#\w{6})'\] \{ fill: (#\w{6}); \} \}")
ON_FILL = re.compile(r"\.on \{ fill: (#\w{6}); \}")
EDGE = re.compile(r'        b(\d+)_(\d+) -> b\1_(\d+) \[label="(\d+)"')


def picture_of(data):
    """A picture's elements, all of which are SVG's, by their names alone."""
    root = ElementTree.fromstring(data)
    for part in root.iter():
        part.tag = part.tag.split(SVG)[1]
    return root


def groups(root, path="."):
    """Those with a part of this path."""
    return [group for group in root.iter("g") if group.find(path) is not None]


def tooltips(root, path="."):
    return [group.findtext("title") for group in groups(root, path)]


def bars(root):
    """By what is written in a box, the cycles of its bar."""
    drawn = [(group.findtext("text"), group.findall("rect")) for group in groups(root)]
    return {text: round((float(parts[0].get("height")) + 3) / 18) for text, parts in drawn if len(parts) == 2}


def shape(mark):
    """The corners of a mark, from the first on."""
    corners = [tuple(map(float, corner.split(","))) for corner in (mark.get("points") or "").split()]
    return tuple((round(x - corners[0][0], 1), round(y - corners[0][1], 1)) for x, y in corners)


def page_of(listing):
    """The page that is drawn of listings."""
    return stepper.drawn(read_traces(lines_of(listing)))


def timeline_of(listing, block=1, **latencies):
    """The picture of a block of a listing that has these latencies."""
    return picture_of(lanes.drawn(lines_of(listing), block, {**USUAL, **latencies}))


class Charts(Place):
    def compared(self, *words):
        return picture_of(self.printed("ilocview", "compare", *words))

    def refuses(self, listings, said):
        """Nothing is drawn, and why is said in a line."""
        ended = self.call("ilocview", "compare", *listings)
        self.expect(f"{listings}", ended, (1, b"", f"ilocview: {said}\n".encode()))

    def read_well(self, pairs):
        faint = {pair for pair in pairs if contrast(*pair) < LEAST_CONTRAST}
        self.expect("texts of too little contrast", (faint, bool(pairs)), (set(), True))

    def test_contrast_of_charts(self):
        """Text is read on light and dark pages, and in the boxes."""
        for name in ("book", "compare", "timeline"):
            root = picture_of(self.read(f"docs/{name}.svg"))
            style = root.findtext("style")
            self.expect(f"{name}: classes of texts",
                        {text.get("class").split()[0] for text in root.iter("text")} <= {"ink", "on"}, True)
            pairs = {*zip(INKS.search(style).groups(), GROUNDS)}
            for group in root.findall(".//g/text[@class='on']/.."):
                pairs.add((ON_FILL.search(style)[1], group.findall("rect")[-1].get("fill")))
            self.read_well(pairs)

    def test_contrast_of_graphs(self):
        """A graph is on the page's own ground, light or dark, and each node on its own."""
        root = picture_of(self.read("docs/graph.svg"))
        light, dark = DARK_TEXT.search(root.find(".//style").text).groups()
        pairs = {(light, GROUNDS[0]), (dark, GROUNDS[1])}
        for group in root.iter("g"):
            inks = {text.get("fill") for text in group.findall("text")}
            if group.get("class") == "node":
                pairs |= {(ink, group.find("path").get("fill")) for ink in inks}
            else:
                self.expect("texts on the ground", inks <= {light}, True)
        self.expect("grounds", {part.get("fill") for part in root.findall(".//g[@class='graph']/polygon")}, set())
        self.read_well(pairs)

    def test_timeline(self):
        """Each operation is drawn where the listing has it, and its bar is as long as its latency."""
        listing = self.call("ilocfarm", "schedule", given=BLOCK)[1]
        root = timeline_of(listing)
        self.expect("tooltips", [tooltip.replace("\n", ": ") for tooltip in tooltips(root)], ISSUED)
        self.expect("bars", bars(root), {"load r0 => r3": 5, "mult r0, r1 => r2": 3, "store r4 => r1": 5})
        boxes = {group.findtext("text"): group.findall("rect")[-1] for group in groups(root)}
        tops = {text: (float(box.get("y")) - 69) / 18 for text, box in boxes.items()}
        issued = {line.split(":")[0]: int(re.search("issued at ([0-9]+)", line)[1]) for line in ISSUED}
        self.expect("cycles of the boxes", tops, issued)

    def test_timeline_explained(self):
        root = timeline_of(EXPLAINED)
        self.expect("tooltip", tooltips(root)[2], "mult r0, r1 => r2\nunit 1, issued at 1, arrives at 4\nnumber 2: "
                    "mult r1, r2 => r3\nready at 1, waited last for 0 and 1\npriority 10")
        for what, mark in ("the chain", f"*[@stroke='{CHAIN}']"), ("the path", "circle"):
            self.expect(what, [group.findtext("text")[0] for group in groups(root, mark)], [*"03456"])
        self.expect("title", root.findtext("title"), "block 1: 13 cycles, at least 13")

    def test_timeline_path(self):
        """Of a path that leaves the chain each operation has its dot."""
        listing = self.call("ilocfarm", "explain", given=self.read("examples/class/dan.iloc"))[1]
        self.expect("path", b"path 0 +1 1 +5 2 +5 3 =1 4 +5 5 +1 6 +5 7 +1\n" in listing, True)
        self.expect("dots", len(groups(timeline_of(listing), "circle")), 8)

    def test_timeline_of_many(self):
        """Three hundred operations, each drawn once; the second block of two, for other latencies."""
        lines = b"".join(b"load r%d => r%d\n" % (k, k + 1) for k in range(300))
        listing = self.call("ilocfarm", "schedule", "--load", "2", given=b"a: nop\nb: " + lines)[1]
        root = timeline_of(listing, 2, load=2)
        issued = [f"load r{k} => r{k + 1}\nunit 0, issued at {2 * k}, arrives at {2 * k + 2}" for k in range(300)]
        self.expect("tooltips", tooltips(root), issued)

    def test_timeline_of_rows_alone(self):
        """Rows as handed in: comments, no header, any claim of cycles or none, operations that come early."""
        for rows, cycles in ((self.read("examples/class/submissions/ada/both.rows"), 16),
                             (self.read("examples/class/submissions/fay/both.rows"), 21),
                             (b"[ loadI 1 => r1;nop ]  // one\r\n\n[ nop ; add r1, r1 => r1 ]\n", 2)):
            root = timeline_of(rows)
            self.expect("title", root.findtext("title"), f"block 1: {cycles} cycles")
        self.expect("tooltips", tooltips(root), [
            "loadI 1 => r1\nunit 0, issued at 0, arrives at 1", "add r1, r1 => r1\nunit 1, issued at 1, arrives at 2"])

    def test_timeline_of_rows_judged(self):
        """What `check` says is wrong is marked at its row, also where latencies aren't those of the rows. Nothing is in
        Dan's, which are `same`, though it says why they aren't by the book."""
        wrong = ("add r1, r2 => r3\nunit 0, issued at 6, arrives at 7\nrow 6: add r1, r2 => r3 reads r2, "
                 "which row 2: loadAI r0, 4 => r2 brings in row 7")
        mark = f"rect[@stroke='{WRONG}']"
        for name, title, marked in ("ben", "15 cycles, wrong", [wrong]), ("dan", "15 cycles, at least 16, same", []):
            rows = self.read(f"examples/class/submissions/{name}/both.rows")
            said = self.call("ilocfarm", "check", "--task", "examples/class/tasks/both.iloc", "3", "4", given=rows)[1]
            for given in (rows + said, b"block 1 both\n" + rows + said):
                root = timeline_of(given)
                self.expect("title", root.findtext("title"), f"block 1 both: {title}")
                self.expect("wrong", tooltips(root, mark), marked)
                self.expect("in the legend", root.find(mark) is not None, bool(marked))
        rows = b"[ ]\n[ multI r1, 2 => r2 ]\n[ ; output 4 ]\n"
        said = b"block 1 - units cycles 4 ours 4 least 4\n  row 2: [ nop ; output 4 ]\ntotal 4 ours 4 least 4\n"
        root = timeline_of(rows + said)
        self.expect("rows of one operation", tooltips(root), [
            "multI r1, 2 => r2\nunit 1, issued at 1, arrives at 4",
            "output 4\nunit 1, issued at 2, arrives at 3\nrow 2: [ nop ; output 4 ]"])

    def test_timeline_refuses(self):
        late = EXPLAINED.replace(b"6 cycle 12", b"6 cycle 200000")
        for block, given, said in (
                (2, EXPLAINED, "there is no block 2"),
                (1, b"", "there is no block 1"),
                (1, b"block 1 a\n7\n", "line 2 is none of a schedule, as is `. nop ; output 4 .`: 7"),
                (1, b"block " + b"9" * 5000 + b" a\n", "a number of 5000 digits: 9999999999.."),
                (1, EXPLAINED.replace(b"cycle 1 unit 1", b"cycle 1 unit 0"),
                 "block 1 has two operations on one unit in one cycle"),
                (1, late, "block 1 takes 200001 cycles: at most 160000 are drawn")):
            with self.assertRaisesRegex(Unread, f"^{said}"):
                timeline_of(given, block)

    def test_timeline_of_hostile_texts(self):
        """What is drawn is XML, whatever the bytes, and soon there."""
        begun = time.process_time()
        timeline_of(b"[ " + b";" * 1_000_000 + b" ]")
        timeline_of(b"[ load r1 => r2 ]\n" * 10_000)
        timeline_of(b"".join(b"block %d -\n" % k for k in range(1, 20_000)) +
                    b"".join(b"block %d - lawful cycles 0 ours 0 least 0\n" % k for k in range(1, 20_000)))
        self.expect("within 30 s", time.process_time() - begun < 30, True)

    def test_timeline_of_changed_texts(self):
        """Of listings with other bytes in them, each is drawn as XML, or refused by one line."""
        chance, begun = random.Random(69), (EXPLAINED, self.read("examples/class/submissions/ada/both.rows"))
        bytes_of = [b";", b"[", b"]", b"\0", b"\x0c", b"\xff", b"\xef\xbf\xbe", b"99999999999", b"-1", b"\xd9\xa3",
                    b" ; ", b"\npath 1"]
        drawn = 0
        for _ in range(200):
            text = bytearray(chance.choice(begun))
            for _ in range(chance.randrange(1, 4)):
                at = chance.randrange(len(text))
                text[at:at + chance.randrange(2)] = chance.choice(bytes_of)
            try:
                timeline_of(bytes(text))
                drawn += 1
            except Unread as why:
                self.expect(f"{bytes(text)}", "\n" in f"{why}", False)
        self.expect("some are drawn, and some refused", 0 < drawn < 200, True)

    def test_graph(self):
        """dot draws each operation and each edge."""
        self.needs("dot")
        chance = random.Random(48)
        made = [lab_block(chance) for _ in range(40)]
        dot = self.call("ilocfarm", "graph", given=text_of(made))[1]
        drawn = self.call("dot", "-Tsvg", given=dot)[1].decode()
        self.expect("nodes", drawn.count('class="node"'), sum(op.opcode != "nop" for ops in made for op in ops))
        self.expect("edges", drawn.count('class="edge"'), len(EDGE.findall(dot.decode())))

    def test_graph_in_docs(self):
        """The picture of Dan's block has the nodes and edges that are listed today; dot laid it out once."""
        dot = self.call("ilocfarm", "graph", given=self.read("examples/class/dan.iloc"))[1].decode()
        root = picture_of(self.read("docs/graph.svg"))
        titles = [part.findtext("title") for part in groups(root) if part.get("class") in ("node", "edge")]
        self.expect("edges", sorted(title for title in titles if ">" in title),
                    sorted(f"b{k}_{i}->b{k}_{j}" for k, i, j, _ in EDGE.findall(dot)))
        self.expect("nodes", sorted(title for title in titles if ">" not in title),
                    sorted(re.findall(r"^        (\w+) \[label", dot, re.MULTILINE)))

    def test_compare(self):
        self.write("one", b"block 1 - cycles 4\nblock 2 b cycles 20\ntotal 24\n")
        self.write("last", b"block 1 x cycles 6\nblock 2 y cycles 0\ntotal 6\n")
        root = self.compared("one", "last")
        self.expect("tooltips", tooltips(root), ["1 -\none: 4\nlast: 6", "2 b\none: 20\nlast: 0"])
        texts = [text.text for text in root.iter("text")]
        self.expect("totals", texts[-3:], ["total", "24", "6"])
        first, second = [group.find("circle") for group in groups(root)]
        scale = {text.text: float(text.get("x"))
                 for text in root.iter("text") if text.get("text-anchor") == "middle"}
        self.expect("a mark is at its cycles", float(second.get("cx")), scale["20"])
        self.expect("and between", float(first.get("cx")), (4 * scale["0"] + scale["20"]) / 5)

    def test_compare_checked(self):
        self.write("ada", CHECKED)
        self.write("dan", CHECKED.replace(b"differs", b"same").replace(b"cycles 14", b"cycles 24"))
        root = self.compared("ada", "dan")
        self.expect("tooltips", tooltips(root), [
            "1 sum\nada: 14\ndan: 24\nours: 14\nleast: 13",
            "2 dot\nada: 19\ndan: 19\nours: 22\nleast: 20\nada: differs"])

    def test_compare_priorities(self):
        """The listing and the table of `compare` have a mark for each priority, and the least."""
        given = self.read("examples/dot.iloc") + self.read("examples/book.iloc")
        self.write("listing", self.call("ilocfarm", "compare", given=given)[1])
        self.write("table", self.call("ilocfarm", "compare", "--csv", given=given)[1])
        drawn = self.call("ilocview", "compare", "listing")
        self.expect("the table's picture", self.call("ilocview", "compare", "table"), drawn)
        marks = {"least": 21, "chain": 22, "slack": 23, "descendants": 22, "successors": 21, "latency": 21, "order": 21}
        told = tooltips(picture_of(drawn[1]))[0].splitlines()
        self.expect("tooltip", (told[0], sorted(told[1:])),
                    ("1 dot", sorted(f"{name}: {cycles}" for name, cycles in marks.items())))
        self.write("counts", self.call("ilocfarm", "counts", given=given)[1])
        told = tooltips(self.compared("table", "counts"))[0].splitlines()
        self.expect("names", (told[1], told[7]), ("table chain: 22", "counts: 22"))

    def test_compare_leaves_wrong_ones_out(self):
        """Of a block whose verdict doesn't pass nothing is in a total, whichever listing has it."""
        self.write("ada", CHECKED)
        self.write("dan", b"block 1 x cycles 15\nblock 2 y cycles 20\ntotal 35\n")
        root = self.compared("ada", "dan")
        texts = [text.text for text in root.iter("text")]
        self.expect("totals", texts[-6:], ["total", "14", "15", "14", "13", "without those that don't pass"])

    def test_compare_tells_columns_apart(self):
        """Of 54 listings no two have a mark of one shape and colour; a 55th is refused."""
        for k in range(55):
            self.write(f"l{k}", b"block 1 - cycles %d\n" % k)
        root = self.compared(*(f"l{k}" for k in range(54)))
        row = root.find("g")
        marks = {(mark.tag, mark.get("fill"), shape(mark)) for mark in row if mark.get("fill")}
        self.expect("marks", len(marks), 54)
        self.refuses([f"l{k}" for k in range(55)], "more than 54 listings can't be told apart")

    def test_page_refuses(self):
        """Listings that were cut off or changed, and those that lack a trace."""
        whole = self.listings(["graph"], ["trace"], given=BLOCK)
        for given, said in (
                (b"", "there is no block"),
                (self.listings(["graph"], given=BLOCK), "there is no trace of a block"),
                (whole[:-3], "line "),
                (whole.replace(b"issue 0", b"issue 5"), "no operation before sends what arrives: "),
                (whole.replace(b"issue 0", b"issue " + b"0" * 5000), "a number of 5000 digits: 0000000000.."),
                (whole.replace(b"b1_5 -> b1_6", b"b1_5 -> b1_9"), "the graph of block 1 lacks an operation"),
                (whole.replace(b"b1_5 -> b1_6", b"b1_6 -> b1_5"), "the graph of block 1 lacks an operation"),
                *((b"block 1 -\nissue 0 unit 0 nop\n" + line, "line 3 is none of a schedule") for line in (
                    b"issue 0 unit 0 <br>", b"issue 0 unit 0 nop reads <br>", b"write 1 <br> = 1 was 0 from 0"))):
            with self.assertRaisesRegex(Unread, f"^{said}"):
                page_of(given)

    def test_compare_of_many(self):
        """Above sixty blocks ratios, not rows: a curve a listing, and a table."""
        checked = [b"block %d - %s cycles %d ours 20 least 20\n" % (k, b"differs" if k == 100 else b"same", 20 + k % 4)
                   for k in range(1, 101)]
        self.write("ada", b"".join(checked) + b"total 1\n")
        self.write("dan", b"".join(b"block %d - cycles 20\n" % k for k in range(1, 101)))
        root = self.compared("ada", "dan")
        texts = [text.text for text in root.iter("text")]
        self.expect("blocks", "99 blocks, 1 left out that don't pass" in texts, True)
        as_few = "1980 cycles, 100 % as few, 1.000 mean, 1.000 9 in 10, 1.000 worst"
        self.expect("curves", tooltips(root), [
            "ada: 2130 cycles, 24 % as few, 1.074 mean, 1.150 9 in 10, 1.150 worst",
            f"dan: {as_few}", f"ours: {as_few}"])
        self.expect("height", float(root.get("height")) < 600, True)

    def test_compare_refuses(self):
        self.write("one", b"block 1 - cycles 4\ntotal 4\n")
        self.write("two", b"block 1 x cycles 6\nblock 2 y cycles 0\ntotal 6\n")
        self.write("other", b"block 1 - cycles 4\n[ nop ; nop ]\n")
        self.write("both", b"block 1 - cycles 4\nblock 2 - least 4 chain 5\n")
        self.write("digits", b"block 1 - cycles " + b"9" * 5000 + b"\n")
        for words, said in ((["one", "two"], "the listings have 1, 2 blocks: only the same ones can be compared"),
                            (["one", "other"],
                             "other: line 2 is none of a listing of counts, check or compare: [ nop ; nop ]"),
                            (["one", "digits"], "a number of 5000 digits: 9999999999.."),
                            (["one"], "one listing of counts can't be compared: give another"),
                            (["both"], "both: the blocks are listed in more than one way")):
            self.refuses(words, said)
