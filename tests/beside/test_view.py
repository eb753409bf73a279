"""Cases of ilocview: it draws what charts/ draws of what the program lists."""
import os
import random
import re
import shutil
import sys
from itertools import islice

from beside.test_charts import page_of
import lanes
from comparison import drawn as compared
from harness.place import Place
from harness.program import TOP
from language import USUAL
from listing import lines_of
from oracle.drawn import lab_block
from oracle.judge import why_void
from oracle.machine import words_from
from oracle.operations import text_of
from oracle.scheduler import ORDERS
from svg import TEXT, dark, element

LAB = ("--load", "3", "--store", "3", "--mult", "2")
BOOK, TASK, DAN, EVE = ("examples/book.iloc", "examples/class/tasks/both.iloc", "examples/class/dan.iloc",
                        "examples/class/eve.iloc")
BEN, FAY = (f"examples/class/submissions/{name}/both.rows" for name in ("ben", "fay"))
WORDS = ("--at", "1024", "3", "4")      # as the task says
NO_TOOL = b"ilocview: this needs %s, which is not on the PATH (Debian: %s)\n"
NOT_TAKEN = "{} isn't an option of ilocfarm {}, whose listing is drawn"
ONE_FILE = "--priorities with a name, or more than once, needs one file of BLOCKS and no --task"
TWICE = "two files of priorities are called {}: write NAME=FILE, with another name for each"
NO_TABLE = "a table is made of one file of BLOCKS, without --task"
COMMA = f"""{EVE}: line 6: expected ",", found "r2"
        add r1 r2 => r3
               ^"""
REFUSED = (
    (["timeline", "nosuch"], 4, "nosuch: No such file or directory"),
    (["timeline", "."], 4, ".: Is a directory"),
    (["timeline", EVE], 1, COMMA),
    (["page", EVE, BEN], 1, COMMA),
    (["timeline", EVE, BEN], 1, COMMA),
    (["timeline", TASK, DAN], 1, f"{DAN}: line 2 is none of a schedule, as is `[ nop ; output 4 ]`: sum:"),
    (["timeline", BOOK, "--block", "2"], 1, f"{BOOK}: there is no block 2"),
    (["compare", BOOK, DAN, "two.iloc"], 1, "the listings have 1, 1, 2 blocks: only the same ones can be compared"),
    (["compare", "none.iloc"], 1, "none.iloc: there is no block"),
    (["page", "none.iloc"], 1, "none.iloc: there is no block"),
    (["page", "input.iloc"], 1, "input.iloc: expected `//SIM INPUT: -i ADDRESS WORD ..`, found `3 4`"),
    (["page", BOOK, "-i", "2"], 2, "--at is not a multiple of 4"),
    (["timeline", BOOK, "--priority", "nosuch"], 2, None),
    (["compare", BOOK, "--priority", "order"], 2, NOT_TAKEN.format("--priority", "compare")),
    (["compare", BOOK, DAN, "--nodes", "0"], 2, NOT_TAKEN.format("--nodes", "counts")),
    (["timeline", TASK, BEN, "--priorities", "own"], 2, NOT_TAKEN.format("--priorities", "check")),
    (["compare", "--task", TASK, BEN, "--priorities", "own"], 2, NOT_TAKEN.format("--priorities", "check")),
    (["compare", BOOK, "--priorities", "a=nosuch"], 4, "nosuch: no such file"),
    (["compare", BOOK, "--priorities", "own", "--priorities", "./a=own"], 2, TWICE.format("own")),
    (["compare", BOOK, "--priorities", "a=own", "--priorities", "b=own", "--priorities", "a=b"], 2, TWICE.format("a")),
    (["compare", BOOK, DAN, "--priorities", "a=own"], 2, ONE_FILE),
    (["compare", BOOK, DAN, "--priorities", "a", "--priorities", "b"], 2, ONE_FILE),
    (["compare", "--task", TASK, BEN, "--priorities", "a=own"], 2, ONE_FILE),
    (["compare", BOOK, DAN, "-o", "made.csv"], 2, NO_TABLE),
    (["compare", "--task", TASK, BEN, "-o", "made.csv"], 2, NO_TABLE),
    (["timeline", BOOK, "--either-slot"], 2, NOT_TAKEN.format("--either-slot", "explain")),
    (["timeline", BOOK, "-i", "1024", "3"], 2, NOT_TAKEN.format("--memory", "explain")),
    (["timeline", BOOK, "-o", "nosuch/book.svg"], 4, "nosuch/book.svg: No such file or directory"),
)
# Words after `compare --priorities`, and what is said of each.
UNNAMED = ("expected FILE or NAME=FILE, where NAME is a letter, then letters, digits and _, found {0}: "
           "for a file of that name write ./{0}")
MISNAMED = (*((f"{name}=own", f"{name} is another column: write NAME=FILE with another name")
              for name in (*ORDERS, "own", "block", "name", "least", "bound", "best")),
            *((word, UNNAMED.format(word))
              for word in ("=own", "a=", "a-b=own", "1=own", "_a=own", "a b=own", "\u00e4=own")))
# In place of ilocfarm: what it prints is its file of priorities, and it keeps its words.
ECHO = """#!/bin/sh
echo "$@" >> asked
for word; do case $word in --priorities=*) cat -- "${word#*=}" ;; esac; done
"""
# Texts that aren't blocks, and what is said of each.
UNREAD = (
    (b"loadI 1 -> r1\n", 'expected "=>", found "-"', 8),
    (b"LOADI 1 => r1\n", 'no such opcode "LOADI": loadI?', 0),
    (b"loadI #4 => r1\n", 'expected a number, found "#"', 6),
    (b"load @a => r1\n", 'expected a register, found "@": for rarp and @x write r0 or a register, and a number, as in '
     "examples/book.iloc", 5),
    (b"store r1 => 4\n", 'expected a register, found "4"', 12),
    (b"\xef\xbb\xbfnop\n", "the text begins with a byte-order mark: save it without one", 0),
    (b"\xff\xfen\0o\0p\0", "the text is in UTF-16: save it as UTF-8", 0),
    (b"[ nop ; output 4 ]\n", 'expected an operation or "//", found "[": ROWS come after their BLOCKS', 0),
    (b"block 1 -\n", 'no such opcode "block": ROWS come after their BLOCKS', 0),
)
MISTAKEN = ([], ["draw", BOOK], ["graph"], ["timeline", BOOK, "--load", "17"], ["graph", BOOK, "--block", "1"])


class View(Place):
    def draws(self, words, drawn, **more):
        """It writes just this, to a file and to standard output."""
        ending = "html" if words[0] == "page" else "svg"
        self.expect(f"{words}", self.call("ilocview", *words, **more), (0, drawn, b""))
        self.expect(f"{words} to a file", self.call("ilocview", *words, "-o", f"drawn.{ending}", **more), (0, b"", b""))
        self.expect(f"the file of {words}", self.read(f"drawn.{ending}"), drawn)

    def test_page(self):
        """Of our schedules and of rows, on the words that the task has a line for, or those that are given; nothing is
        fetched."""
        commands = (["explain"], ["explain", "--cycles"], ["graph"], ["trace"])
        listing = self.listings(*([*command, *LAB] for command in commands), given=self.read(BOOK))
        self.draws(["page", *LAB, BOOK], page_of(listing).encode())
        listing = self.listings(*commands[:3], ("trace", "--at", "8", "3", "4294967292"), given=self.read(DAN))
        self.draws(["page", DAN, "-i", "8", "3", "-4"], page_of(listing).encode())
        self.write("swapped.rows", re.sub(rb"\[ (.*) ; nop ]", rb"[ nop ; \1 ]", self.read(FAY)))
        for path, *option in ((FAY,), (BEN,), ("swapped.rows", "--either-slot")):
            rows, graph = ("--task", TASK, *option), self.listings(("graph",), given=self.read(TASK))
            commands = [("trace", *rows, *WORDS), ("explain", *rows), ("check", *rows, *WORDS),
                        ("check", "--json", *rows, *WORDS)]
            del commands[1:1 + (path == BEN)]       # whose rows aren't by the book
            listing = graph + self.listings(*commands, given=self.read(path))
            self.draws(["page", TASK, path, *option], page_of(listing).encode())
        out = re.findall(r'(?:src|href)="(?!#)[^"]*|url\(|@import', self.text("drawn.html"))
        self.expect("links out", out, [])

    def test_operations(self):
        """On a page of rows each operation of the block leads to the slot that issues it, or is dim."""
        chance, start = random.Random(60), words_from(0, [])
        drawn = (lab_block(chance) for _ in range(100))
        self.write("drawn.iloc", text_of([*islice((ops for ops in drawn if not why_void(ops, start)), 60)]))
        self.write("drawn.rows", self.listings(("schedule",), given=self.read("drawn.iloc")))
        explained = self.listings(("explain", "--task", "drawn.iloc"), given=self.read("drawn.rows")).decode()
        made = self.printed("ilocview", "page", "drawn.iloc", "drawn.rows").decode()
        self.expect("places", re.findall(r'<li value="(\d+)" data-op="(\d+)\.(\d)">', made),
                    re.findall(r"^(\d+) cycle (\d+) unit (\d) ", explained, re.MULTILINE))
        self.expect("dim ones", "Dim: " in made, False)
        self.write("twice.iloc", b"loadI 1 => r1\nloadI 1 => r2\nadd r1, r2 => r3\noutput 4\n")
        self.write("twice.rows", b"[ loadI 1 => r1 ; loadI 1 => r2 ]\n[ add r1, r1 => r3 ; output 4 ]\n")
        made = self.printed("ilocview", "page", "twice.iloc", "twice.rows").decode()
        self.expect("what can be either", re.findall(r'<li value="(\d)" data-op="(.*?)">', made),
                    [("0", ""), ("1", ""), ("2", "1.0"), ("3", "1.1")])
        self.expect("what dim means", made.count('<p class="dim">Dim: no row is known to issue it.</p>'), 1)

    def test_path(self):
        """A page of rows by the book has their path, and where the scheduler would choose otherwise first."""
        made = self.printed("ilocview", "page", TASK, FAY).decode()
        self.expect("said", re.findall(r'<ul class="said ">(.*?)</ul>', made),
                    ['<li><a href="#1.2">row 2</a>: the choice would take 2 loadAI r0, 4 =&gt; r2 ; nop</li>'])
        boxes = re.findall(r'<rect[^>]* class="box"[^>]*/>(<circle[^>]*/>)?<text[^>]*>(\d)', made)
        self.expect("path", [number for dot, number in boxes if dot], [*"0125678"])

    def test_timeline(self):
        """With the latencies of its listing, whatever they are; docs/ has two as they are drawn."""
        self.draws(["timeline", *LAB, BOOK], self.read("docs/book.svg"))
        self.draws(["timeline", DAN], self.read("docs/timeline.svg"))
        self.write("two.iloc", self.read(BOOK) + b"second: load r1 => r2\noutput 4\n")
        listing = self.listings(("explain", "--load", "9"), given=self.read("two.iloc"))
        made = lanes.drawn(lines_of(listing), 2, {**USUAL, "load": 9})
        self.draws(["timeline", "two.iloc", "--block", "2", "--load", "9"], made.encode())
        rows = self.read(BEN).rstrip(b"\n")     # without its last line's end
        self.write("a b.rows", rows)
        listing = rows + b"\n" + self.listings(("check", "--task", TASK, *WORDS), given=self.read("a b.rows"))
        self.draws(["timeline", TASK, "a b.rows"], lanes.drawn(lines_of(listing), 1, USUAL).encode())

    def test_graph(self):
        self.needs("dot")
        dot = self.listings(("graph", *LAB), given=self.read(BOOK))
        head, title, rest = self.printed("dot", "-Tsvg", given=dot).partition(b"<title>blocks</title>\n")
        style = element("style", dark(f"text[fill='{TEXT['light']}']")).encode() + b"\n"
        self.draws(["graph", *LAB, BOOK], head + title + style + rest)
        self.expect("no folder", self.call("ilocview", "graph", BOOK, "--disambiguate", "-o", "nosuch/book.svg"),
                    (4, b"", b"ilocview: nosuch/book.svg: No such file or directory\n"))

    def test_ranks(self):
        """By numbers of somebody's own, and with addresses compared, as each command that is asked takes them."""
        self.write("own", b"1 2 3 4 5 6 7 8 9\n")
        own, apart = ("--priorities", "own"), ("--disambiguate",)
        listing = self.listings(*([*command, *own, *apart] for command in (["explain"], ["explain", "--cycles"])),
                                ["graph", *apart], ["trace", *own, *apart], given=self.read(BOOK))
        self.draws(["page", BOOK, *own, *apart], page_of(listing).encode())
        listing = self.listings(["explain", *own, *apart], given=self.read(BOOK))
        self.draws(["timeline", BOOK, *own, *apart], lanes.drawn(lines_of(listing), 1, USUAL).encode())
        listing = self.listings(["compare", *own, *apart], given=self.read(BOOK))
        self.draws(["compare", BOOK, *own, *apart], compared([("", BOOK, listing)]).encode())
        rows = self.read(BEN)
        listing = rows + b"\n" + self.listings(["check", "--task", TASK, *apart, *WORDS], given=rows)
        self.draws(["timeline", TASK, BEN, *apart], lanes.drawn(lines_of(listing), 1, USUAL).encode())
        self.write("few", b"1 2 3\n")
        few = "block 1: expected 9 numbers, one for each operation except nop, found 3"
        for name, status, why in (("few", 1, few), ("nosuch", 4, "no such file")):
            self.expect(name, self.call("ilocview", "timeline", BOOK, "--priorities", name),
                        (status, b"", f"ilocview: {name}: {why}\n".encode()))

    def test_compare(self):
        """One file by each priority, several by their cycles, and schedules of one task by what `check` says."""
        listing = self.listings(("compare", "--nodes", "100"), given=self.read(BOOK))
        self.draws(["compare", "--nodes", "100", BOOK], compared([("", BOOK, listing)]).encode())
        options = ("--priority", "order", "--load", "2")
        listed = ((name, path, self.listings(("counts", *options), given=self.read(path)))
                  for name, path in (("dan", DAN), ("book", BOOK)))
        self.draws(["compare", DAN, BOOK, *options], compared(listed).encode())
        self.draws(["compare", "--task", TASK, BEN, FAY], compared(self.checked(BEN, FAY)).encode())

    def checked(self, *paths):
        """What `check` says of hand-ins, by their students."""
        for path in paths:
            listing = self.listings(("check", "--task", TASK, *WORDS), given=self.read(path))
            yield path.split("/")[-2] if len(paths) > 1 else "both", path, listing

    def test_compare_listings(self):
        """What `compare` or `counts` listed is drawn as it is; one hand-in is beside ours and the least."""
        for words in (["compare"], ["compare", "--csv"], ["compare", "--csv", "--nodes", "5"]):
            self.write("listed", self.listings(words, given=self.read(DAN)))
            self.draws(["compare", "listed"], compared([("", "listed", self.read("listed"))]).encode())
        self.draws(["compare", "--task", TASK, BEN], compared(self.checked(BEN)).encode())
        self.expect("an option", self.call("ilocview", "compare", "--nodes", "5", "listed"),
                    (2, b"", b"ilocview: --nodes isn't an option of what draws a listing\n"))

    def test_compare_numbers(self):
        """Each file of priorities has a column, by its name, with the cycles that `counts` has by it."""
        chance = random.Random(101)
        blocks = [lab_block(chance) for _ in range(20)]
        self.write("drawn.iloc", text_of(blocks))
        table = self.table("compare", "--nodes", "5")
        words = ["--nodes", "5"]
        for name, file, word in (("own", "a=b", "./a=b"), ("A_1", "c=d", "A_1=c=d"), ("z", "my own", "z=my own")):
            numbers = ([f"{chance.randrange(9)}" for op in ops if op.opcode != "nop"] for ops in blocks)
            self.write(file, "".join(f"{' '.join(line)}\n" for line in numbers))
            column = [name, *(row[2] for row in self.table("counts", "--priorities", file)[1:])]
            table = [[*row, cycles] for row, cycles in zip(table, column)]
            words += ["--priorities", word]
        wanted = "".join(f"{','.join(row)}\n" for row in table)
        self.printed("ilocview", "compare", "drawn.iloc", *words, "-o", "made.csv")
        self.expect("table", self.text("made.csv"), wanted)
        for given in (["drawn.iloc", *words], ["made.csv"]):
            self.draws(["compare", *given], compared([("", "made.csv", wanted.encode())]).encode())

    def table(self, command, *words):
        """The table that is listed of drawn.iloc, by its rows."""
        listing = self.listings([command, "--csv", *words], given=self.read("drawn.iloc"))
        return [line.split(",") for line in listing.decode().splitlines()]

    def test_compare_table(self):
        """Without files of priorities, or with one that has no name, it is the program's."""
        self.write("own", b"1 2 3 4 5 6 7 8 9\n")
        for words in ([], ["--priorities", "own"], ["--disambiguate", "--nodes", "9", "--load", "2"]):
            self.printed("ilocview", "compare", BOOK, *words, "-o", "made.csv")
            listing = self.listings(["compare", "--csv", *words], given=self.read(BOOK))
            self.expect(f"{words}", self.read("made.csv"), listing)

    def test_compare_misnamed(self):
        for word, said in MISNAMED:
            status, out, err = self.call("ilocview", "compare", BOOK, "--priorities", word)
            self.expect(word, (status, out, err.decode().splitlines()[-1]),
                        (2, b"", f"ilocview compare: error: argument --priorities: {said}"))

    def test_compare_numbers_alone_differ(self):
        """Tables that differ in other columns, or in their rows, aren't joined. The first alone has a search's."""
        os.remove(self.path("bin/ilocfarm"))
        self.script("bin/ilocfarm", ECHO)
        other = "block,name,least,chain,own\n1,a,3,4,6\n"
        self.write("first", "block,name,least,bound,best,chain,own\n1,a,3,3,3,4,5\n")
        words = ["compare", BOOK, "--nodes", "7", "--priorities", "x=first", "--priorities", "y=other"]
        for table in (other.replace("4,6", "5,6"), other.replace("a,", "b,"), other + "2,b,3,4,6\n", other[:28]):
            self.write("other", table)
            self.expect(table, self.call("ilocview", *words, "-o", "made.csv"),
                        (1, b"", b"ilocview: with the priorities y the other columns aren't the same\n"))
        self.expect("nothing is made", os.path.exists(self.path("made.csv")), False)
        self.write("other", other)
        self.write("asked", "")
        self.printed("ilocview", *words, "-o", "made.csv")
        self.expect("table", self.text("made.csv"), "block,name,least,bound,best,chain,x,y\n1,a,3,3,3,4,5,6\n")
        self.expect("searches", ["--nodes=7" in line for line in self.text("asked").splitlines()], [True, False])

    def test_compare_names(self):
        """Files are called by what tells them apart: their names, else their folders."""
        for path in ("a=b.iloc", "c d.iloc", "other/c d.iloc"):
            self.write(path, self.read(BOOK))
        self.write("counts", self.listings(("counts",), given=self.read(BOOK)))
        here = os.path.basename(self.folder)
        for paths, names in ((["a=b.iloc", "c d.iloc"], ["a=b", "c d"]),
                             (["c d.iloc", "other/c d.iloc"], [here, "other"])):
            drawn = compared((name, "counts", self.read("counts")) for name in names)
            self.draws(["compare", *paths], drawn.encode())

    def test_forms(self):
        self.needs("rsvg-convert", "dot")
        for words in (["timeline", BOOK], ["graph", BOOK], ["compare", BOOK], ["timeline", TASK, BEN]):
            for ending, begins in (("pdf", b"%PDF-"), ("PNG", b"\x89PNG\r\n"), ("svg", b"<")):
                self.expect(f"{words} {ending}", self.call("ilocview", *words, "-o", f"made.{ending}"), (0, b"", b""))
                self.expect(f"{words} {ending} begins", self.read(f"made.{ending}").startswith(begins), True)
        for words, out in ((["page", BOOK], "page.pdf"), (["timeline", BOOK], "book.html"), (["graph", BOOK], "book")):
            status, made, err = self.call("ilocview", *words, "-o", out)
            self.expect(f"{words} -o {out}", (status, made), (2, b""))
            self.expect("why", f"{out} doesn't end with ." in err.decode(), True)

    def test_tools_that_are_missing(self):
        """Said by name, with Debian's package; pictures that need none are drawn."""
        os.mkdir(self.path("tools"))
        os.symlink(sys.executable, self.path("tools/python3"))
        path = f"{self.path('bin')}:{self.path('tools')}"
        self.draws(["timeline", *LAB, BOOK], self.read("docs/book.svg"), PATH=path)
        for words, tool, package in ((["timeline", BOOK, "-o", "made.pdf"], b"rsvg-convert", b"librsvg2-bin"),
                                     (["compare", BOOK, "-o", "made.png"], b"rsvg-convert", b"librsvg2-bin"),
                                     (["graph", BOOK, "-o", "made.pdf"], b"dot", b"graphviz")):
            self.expect(f"{words}", self.call("ilocview", *words, PATH=path), (3, b"", NO_TOOL % (tool, package)))
        self.expect("written", [name for name in os.listdir(self.folder) if name.startswith("made")], [])

    def test_finds_the_program(self):
        """Beside the command first, so that one that is called by its path runs its own, then built in its clone, then
        on the PATH."""
        self.script("other/ilocfarm", "#!/bin/sh\necho other\n")
        others = f"{self.path('other')}:{os.environ['PATH']}"
        version = self.call("ilocfarm", "--version")
        for at in "charts", "grading":
            shutil.copytree(f"{TOP}/{at}", self.path(f"clone/{at}"))
        for name, at in (("ilocview", "charts"), ("ilocgrade", "grading")):
            self.expect(name, self.call(self.path(f"bin/{name}"), "--version", PATH=others), version)
            asked = f"clone/{at}/{name}", "--version"
            self.expect("by the PATH", self.call(*asked, PATH=others), (0, b"other\n", b""))
            self.script("clone/out/ilocfarm", "#!/bin/sh\necho built\n")
            self.expect("in a clone", self.call(*asked, PATH=others), (0, b"built\n", b""))
            os.remove(self.path("clone/out/ilocfarm"))
        os.remove(self.path("bin/ilocfarm"))
        path = os.pathsep.join({os.path.dirname(shutil.which("python3")), "/usr/bin"})
        for name, *words in (("ilocview", "timeline", BOOK), ("ilocview", "--version"), ("ilocgrade", "--version")):
            said = f"{name}: ilocfarm is not on the PATH\n".encode()
            self.expect(f"no program for {name}", self.call(f"bin/{name}", *words, PATH=path), (3, b"", said))

    def test_refuses(self):
        self.write("two.iloc", b"a: output 4\nb: output 8\n")
        self.write("none.iloc", b"// nothing\n")
        self.write("input.iloc", b"//SIM INPUT: 3 4\noutput 4\n")
        for words, status, said in REFUSED:
            ended, out, err = self.call("ilocview", *words)
            self.expect(f"{words}: {err}", (ended, out, err.startswith(b"ilocview: "), err.count(b"\n")),
                        (status, b"", True, 3 if said == COMMA else 1))
            if said:
                self.expect(f"{words} says", err.decode(), f"ilocview: {said}\n")
        for text, said, column in UNREAD:
            self.write("unread", text)
            shown = "".join(chr(byte) if 32 <= byte < 127 else "?" for byte in text.rstrip(b"\n"))
            said = f"ilocview: unread: line 1: {said}\n    {shown}\n    {' ' * column}^\n".encode()
            for words in (["page"], ["timeline"], ["graph"], ["compare"]):
                self.expect(f"{words} {text}", self.call("ilocview", *words, "unread"), (1, b"", said))
        for words in MISTAKEN:
            status, out, err = self.call("ilocview", *words)
            self.expect(f"{words}", (status, out, err.startswith(b"usage: ilocview")), (2, b"", True))

    def test_devices_fail(self):
        for broken, said in (("> /dev/full", "No space left on device"), (">&-", "Bad file descriptor")):
            errors = self.shell(f"ilocview timeline {BOOK} 2> said {broken}; echo $?; cat said")[1]
            self.expect(broken, errors.decode(), f"4\nilocview: {said}\n")
