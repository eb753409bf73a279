"""Cases of pages in a browser: what each cycle shows beside the trace, keys, links, what a screen reader meets, narrow
and printed; and pages of odd listings."""
import random
import re

from beside.test_charts import page_of
from harness.browser import Browser
from harness.place import Place
from harness.program import TESTED
from listing import CHAIN, WRONG
from oracle.drawn import lab_block
from oracle.operations import text_of

WRITE = re.compile(r"write (\d+) (r\d+|word \d+) = (-?\d+) was (-?\d+) from (\d+)")
ISSUE = re.compile(r"(issue|fault) (\d+) unit (\d) (.+?)(?: (reads|emits) (.+))?")
READ = re.compile(r"(r\d+|word \d+) = (-?\d+)(?: until (\d+))?")
CLASS = "examples/class"
# A sum beside a product, whose result comes later.
BESIDE = b"loadI 1024 => r1\nadd r1, r1 => r2\nmult r1, r1 => r3\nstore r2 => r1\nstore r3 => r1\n"
FAULTS = b"a: output 0\nb: loadI 2 => r1\nload r1 => r2\nc: loadI 4 => r1\nload r1 => r2\nadd r2, r2 => r3\n"


def traced(lines, number=1):
    """The lines of the trace of a block."""
    at, found = 0, []
    for line in lines:
        at = int(line.split()[1]) if line.startswith("block ") else at
        found += [line] if at == number and (WRITE.fullmatch(line) or ISSUE.fullmatch(line)) else []
    return found


def state_at(lines, cycle):
    """By place its value after a cycle's results have arrived: the first that the trace has, or what was written."""
    first, values = {}, {}
    for line in lines:
        if found := WRITE.fullmatch(line):
            first.setdefault(found[2], found[4])
            values.update({found[2]: found[3]} if int(found[1]) <= cycle else {})
        else:
            for place, value, _ in READ.findall(ISSUE.fullmatch(line)[6] or ""):
                first.setdefault(place, value)
    return {**first, **values}


def sender(lines, write):
    """Where the operation was issued whose result this is."""
    return next(f"{issue[2]}.{issue[3]}" for issue in filter(None, map(ISSUE.fullmatch, lines)) if issue[2] == write[5]
                and (issue[4].startswith("store")
                     if write[2].startswith("word") else issue[4].endswith(f"=> {write[2]}")))


class Page(Place):
    @classmethod
    def setUpClass(cls):
        cls.browser = Browser()
        cls.addClassCleanup(cls.browser.close)

    def setUp(self):
        super().setUp()
        self.browser.size(1280, 1000)
        self.browser.seen_on()
        self.lines = []

    def ben(self):
        """The page's listings of Ben's rows, where memory from 1024 on holds 3 and 4."""
        task = f"{CLASS}/tasks/both.iloc"
        rows = ("--task", task, "3", "4")
        given = self.read(f"{CLASS}/submissions/ben/both.rows")
        graph = self.listings(("graph",), given=self.read(task))
        return graph + self.listings(("trace", *rows), ("check", *rows), ("check", "--json", *rows), given=given)

    def block(self, text, *options):
        return self.listings(("explain", *options), ("explain", "--cycles", *options), ("graph", *options),
                             ("trace", *options, "3", "4"), given=text)

    def open(self, listing, fragment=""):
        """Makes a page of a listing and opens it; nothing may go wrong there until the end of the case."""
        self.write("page.html", page_of(listing))
        self.lines = listing.decode().splitlines()
        self.browser.problems.clear()
        self.browser.open(self.path("page.html"), fragment)
        self.addCleanup(lambda: self.expect("problems", self.browser.problems, []))

    def value(self, expression):
        return self.browser.value(expression)

    def said(self):
        return self.value('document.querySelector("section:not([hidden]) output").textContent')

    def texts(self, what):
        shown = f'document.querySelectorAll("section:not([hidden]) {what}")'
        return self.value(f"[...{shown}].map(part => part.textContent)")

    def marked(self, where, kind):
        return sorted(self.value(f'[...document.querySelectorAll("{where}.{kind}")].map(part => part.dataset.op)'))

    def shows(self, lines, cycle, last):
        """Registers, words, results under way, emitted words, events, and marks in block, schedule and graph."""
        now = [line for line in lines if int(line.split()[1]) == cycle]
        self.expect("output", self.said(), f"cycle {cycle} of {last}")
        self.expect("events", self.texts(".events li"), now or ["nothing arrives, and nothing is issued"])
        state = state_at(lines, cycle)
        for what, kind in (("registers", "r"), ("words", "word ")):
            shown = dict(text.split(" = ") for text in self.texts(f".{what} li") if " = " in text)
            wanted = {place.removeprefix("word "): value for place, value in state.items() if place.startswith(kind)}
            self.expect(what, shown, {place: wanted.get(place) for place in shown})
            self.expect(f"hidden {what}",
                        [value for place, value in wanted.items() if place not in shown and value != "0"], [])
        flights = [write
                   for write in filter(None, map(WRITE.fullmatch, lines)) if int(write[5]) <= cycle < int(write[1])]
        self.expect("flights", sorted(self.texts(".flights li")),
                    sorted(f"{write[2]} = {write[3]} at {write[1]}" for write in flights) or ["nothing"])
        emitted = [line.split()[-1] for line in lines if int(line.split()[1]) <= cycle and " emits " in line]
        self.expect("emitted", self.texts(".emitted li"), emitted or ["nothing"])
        issued = sorted(f"{issue[2]}.{issue[3]}" for issue in map(ISSUE.fullmatch, now) if issue)
        flying = sorted(sender(lines, write) for write in flights if int(write[5]) < cycle)
        for where in (".source li", ".timeline g", ".graph g"):
            if self.value(f'!!document.querySelector("{where}")'):
                self.expect(where, (self.marked(where, "issued"), self.marked(where, "flying")), (issued, flying))
        if self.value('!!document.querySelector(".ready")'):
            self.expect("taken", self.marked(".ready [data-first]:not([hidden]) li", "issued"), issued)

    def test_each_cycle(self):
        """Of Ben's rows, and of our schedules of a small block and of drawn ones."""
        chance = random.Random(7)
        listings = [self.block(text_of([lab_block(chance)]), *options) for options in
                    ((), ("--load", "2", "--store", "16"), ("--priority", "order", "--mult", "1"), ("--load", "1"))]
        for listing in [self.ben(), self.block(BESIDE), *listings[:2 if TESTED.is_short else None]]:
            self.open(listing)
            lines = traced(self.lines)
            last = int(self.value('document.querySelector("section").dataset.last'))
            self.expect("last", last >= max(int(line.split()[1]) for line in lines), True)
            for cycle in range(last + 1):
                with self.subTest(lines[-1], cycle=cycle):
                    self.shows(lines, cycle, last)
                self.browser.key("ArrowRight")

    def test_keys(self):
        self.open(self.ben())
        for key, times, cycle in (("ArrowLeft", 1, 0), ("ArrowRight", 6, 6), ("ArrowLeft", 2, 4), ("End", 1, 15),
                                  ("ArrowRight", 1, 15), ("Home", 1, 0)):
            self.browser.key(key, times)
            self.expect(key, self.said(), f"cycle {cycle} of 15")
        self.value('document.querySelector("input").focus()')
        self.browser.key("ArrowRight", 3)
        self.expect("at the slider, one step each", self.said(), "cycle 3 of 15")
        self.expect("its words", self.value('document.querySelector("input").getAttribute("aria-valuetext")'),
                    self.said())
        self.value('document.querySelector(".timeline").focus()')
        self.browser.key("ArrowRight")
        self.expect("in a box that scrolls", self.said(), "cycle 3 of 15")

    def test_tab(self):
        """Each control is reached by the keyboard."""
        self.open(self.block(self.read(f"{CLASS}/tasks/both.iloc")))
        seen = []
        active = "document.activeElement"
        for _ in range(8):
            self.browser.key("Tab")
            seen.append(self.value(f"{active}.getAttribute('aria-label') || {active}.textContent"))
        self.expect("order", seen[:3], ["one cycle back", "cycle", "one cycle on"])
        self.expect("the trace", "The trace" in seen, True)

    def test_early_read(self):
        """A row in what `check` says leads to its cycle, where reader, register, result and delay are marked."""
        self.open(self.ben())
        self.value('document.querySelector(".said a").click()')
        self.value("new Promise(done => setTimeout(done, 50))")
        self.expect("cycle", self.said(), "cycle 6 of 15")
        self.expect("event", self.texts(".events .early"), ["r2 = 0 until 7"])
        self.expect("register", self.texts(".cells .early"), ["r2 = 0"])
        self.expect("reader", self.marked("[data-op]", "early"), ["6.0"] * 3)
        self.expect("result", self.marked("[data-op]", "awaited"), ["2.0"] * 3)
        for part in ".timeline g rect", ".graph path":
            self.expect(part, self.value(f"document.querySelectorAll('{part}[stroke=\"{WRONG}\"]').length"), 1)

    def test_click(self):
        self.open(self.ben())
        self.value('document.querySelector(".timeline g:last-of-type rect")'
                   '.dispatchEvent(new MouseEvent("click", {bubbles: true}))')
        self.expect("cycle", self.said(), "cycle 14 of 15")

    def test_blocks(self):
        """One is shown, and has the keys; a fault is the last cycle."""
        self.open(self.block(FAULTS))
        shown = 'document.querySelector("section:not([hidden])").id'
        self.expect("first", (self.value(shown), len(self.texts("h1"))), ("block-1", 1))
        self.open(self.block(FAULTS), "#2.1")
        self.expect("second", (self.value(shown), self.said()), ("block-2", "cycle 1 of 1"))
        self.expect("fault", self.texts(".events .early"), ["fault 1 unit 0 load r0 => r1 reads r0 = 2"])
        self.open(self.block(FAULTS), "#3.0")
        self.browser.key("ArrowRight")
        self.expect("third", (self.value(shown), self.said()), ("block-3", "cycle 1 of 7"))

    def test_screen_reader(self):
        self.open(self.ben(), "#1.6")
        met = self.browser.tree()
        title = "block 1 both: 15 cycles, wrong"
        for part in (("group", "the schedule"), ("heading", title), ("slider", "cycle"), ("button", "one cycle on"),
                     ("image", title), ("image", "dependence graph of block 1")):
            self.expect(part, part in met, True)
        self.expect("without a name",
                    [part for part in met if part[0] in ("button", "slider", "link", "image") and not part[1]], [])

    def test_narrow(self):
        self.browser.size(400, 800)
        for listing in (self.ben(), self.block(FAULTS)):
            self.open(listing)
            self.expect("width", self.value("document.documentElement.scrollWidth") <= 400, True)

    def test_printed(self):
        self.browser.seen_on("print", "dark")
        self.open(self.block(FAULTS))
        self.value('dispatchEvent(new Event("beforeprint"))')
        for what, wanted in (("#block-3", "block"), ("#block-1 .now", "none")):
            self.expect(what, self.value(f'getComputedStyle(document.querySelector("{what}")).display'), wanted)
        self.expect("traces", self.value('[...document.querySelectorAll("details")].every(part => part.open)'), True)

    def test_markup(self):
        """Hostile texts of a listing are shown as they are: no element and no script comes of them."""
        bad = "<img/src=x/onerror=document.title='had'></pre><script>document.title='had'</script>"
        trace = ("issue 0 unit 0 add r1, r1 => r1 reads r1 = 3\nwrite 1 r1 = 6 was 3 from 0\n",
                 f"  row 0: {bad}\n", f'        b1_0 [label="0: {bad}\\npriority 1"];\n')
        self.open(f"block 1 {bad}\n{''.join(trace)}cycles 1 least 1\n".encode(), "#1.0")
        self.expect("title", self.value("document.title"), "Blocks on the timed machine")
        self.expect("made", self.value('document.querySelectorAll("img, script").length'), 1)
        for where in (".said li", ".source li"):
            self.expect(where, bad in self.texts(where)[0], True)

    def test_other_latencies(self):
        """Listings that don't agree are joined as far as it goes."""
        explained = self.listings(("explain", "--load", "9"), given=self.read(f"{CLASS}/tasks/both.iloc"))
        self.open(self.ben() + explained)
        self.expect("chain", self.value(f"document.querySelectorAll('[stroke=\"{CHAIN}\"]').length"), 0)

    def test_large(self):
        """Ten thousand operations: the graph isn't drawn, and the page steps."""
        text = b"".join(b"load r%d => r%d\n" % (k % 50, k % 50 + 1) for k in range(10_000))
        self.open(self.block(text))
        self.expect("graph", "Its graph isn't drawn: it has more than 60 operations." in self.texts(".panels > p"),
                    True)
        self.value("location.hash = '#1.4000'")
        self.value("new Promise(done => setTimeout(done, 50))")
        self.expect("cycle", self.said().split(" of ")[0], "cycle 4000")
