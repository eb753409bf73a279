"""Cases of man/, and of what is asked of the program by --help, --version and help."""
import os
import re
import subprocess

from harness.place import COMMAND, COMMANDS, Place
from harness.program import NO_BLOCKS, SECONDS, TESTED, TOP
from harness.terminal import terminal
from language import MAX_NUMBER, MOST_BLOCKS, MOST_BYTES, MOST_OPERATIONS
from oracle.scheduler import ORDERS

PAGE = f"{TOP}/man/ilocfarm.1"
LITERAL = re.compile(r"^\.Bd -literal.*\n((?:(?!\.Ed).*\n)*)\.Ed\n", re.MULTILINE)
# By line what is offered for its last word.
COMPLETIONS = {
    "ilocfarm s": "simulate schedule",
    "ilocfarm --v": "--version",
    "ilocfarm counts --load ": "",
    "ilocfarm counts --load 1 --m": "--mult",
    "ilocfarm help c": "counts compare check",
    "ilocfarm counts --priority ": " ".join(ORDERS),
    "ilocfarm schedule --load 1 --priority s": "slack successors",
    "ilocfarm run --at 4 1": "",
    "ilocfarm run < ": "",
    "ilocfarm < first.iloc": "",
    "ilocview t": "timeline",
    "ilocview page --l": "--load",
    "ilocview timeline blocks --priority ": " ".join(ORDERS),
    "ilocview page ": "",
    "ilocpieces j": "job join",
    "ilocpieces split blocks --p": "--priorities",
    "ilocgrade tasks --le": "--lenient",
    "ilocgrade --policy b": "best",
    "ilocgrade tasks ": "",
}
# How a shell is started, and what it reads the completions by; then what is typed, and what the line shows.
SHELLS = {
    "bash": (["bash", "--norc", "-i"], "for each in made/*.bash; do source $each; done"),
    "zsh": (["zsh", "-f", "-i"], "unset zle_bracketed_paste; fpath=($PWD $fpath); autoload compinit; compinit -u -D"),
}
TYPED = (
    ("ilocfarm run < examples/fir\t", "> ilocfarm run < examples/first.iloc"),
    ("ilocfarm si\t", "> ilocfarm simulate"),
    ("ilocfarm counts --wo\t", "> ilocfarm counts --workers"),
    ("ilocfarm check --mu\t", "> ilocfarm check --mult"),
    ("ilocfarm counts --priority desc\t", "> ilocfarm counts --priority descendants"),
    ("ilocview tim\t", "> ilocview timeline"),
    ("ilocview page examples/fir\t", "> ilocview page examples/first.iloc"),
    ("ilocview page examples/first.iloc --eith\t", "> ilocview page examples/first.iloc --either-slot"),
    ("ilocgrade --len\t", "> ilocgrade --lenient"),
)
IN_FISH = (
    ("ilocfarm si", "simulate\tSchedule each block, and run the schedule\n"),
    ("ilocfarm counts --wo", "--workers\tHow many workers share the blocks, 1 to 8 [default: 2]\n"),
    ("ilocfarm run < examples/fir", "examples/first.iloc\n"),
    ("ilocfarm explain --priority s",
     "".join(f"{name}\tWhat goes first: {', '.join(ORDERS[:-1])} or {ORDERS[-1]} [default: chain]\n"
             for name in ("slack", "successors"))),
    ("ilocview time", "timeline\ta schedule: units over cycles\n"),
    ("ilocview page examples/fir", "examples/first.iloc\n"),
    ("ilocgrade --policy b",
     "best\tfull points for passing, or for as few cycles as ours, the bound, or the best of the class "
                             "[ours]\n"),
)
READS_TERMINAL = "ilocfarm: reading {} from the terminal; Ctrl-D on a line of its own ends them\n"
NO_SUCH_OPCODE = 'line 1: no such opcode "nope": nop?\n    nope\n       ^\n'
CAPITAL = 'line 1: expected a register, found "R1": registers begin with a small r\n    add R1, r2 => r3\n        ^\n'
HAS_A_ROW = "ilocfarm: it has a row where blocks belong\n"
ADVISES_WORDS = "ilocfarm: //SIM INPUT: isn't read here; give its words, as in ilocfarm run --at 1024 3 4\n"
EMPTY = "ilocfarm: the input was empty\n"
NOT_UNDERSTOOD = "ilocfarm: line 1: not understood\n"
WITH_WORDS = b"nop\n //\tSIM INPUT: -i 1024 3\noutput 1024\n"
# Words and input; what is said of them on any standard error, and what on a terminal besides.
ADVISED = (
    (["run"], b"nope\n", NOT_UNDERSTOOD, NO_SUCH_OPCODE),
    (["counts"], b"add R1, r2 => r3", NOT_UNDERSTOOD, CAPITAL),
    (["run"], b"[ nop ; nop ]\n", NOT_UNDERSTOOD, HAS_A_ROW),
    (["trace"], b"[ nop ; nop ]\n", NOT_UNDERSTOOD + HAS_A_ROW, ""),
    (["check"], b"nope\n", NOT_UNDERSTOOD + NO_SUCH_OPCODE, ""),
    (["check"], b"[ nop ; nop ]\n", "ilocfarm: no blocks\n" + NO_BLOCKS.decode(), ""),
    (["lint"], b"nope\n", "", ""),
    *(([command], b"", "", EMPTY) for command in ("explain", "counts", "graph", "lint")),
    (["run"], b"\n", "", ""),
    (["help"], b"", "", ""),
    (["run", "-x"], b"nope\n", None, ""),
    (["run"], b"nop\n", "", ""),
    (["run"], WITH_WORDS, "", ADVISES_WORDS),
    (["simulate"], WITH_WORDS, "", ADVISES_WORDS),
    (["run", "3"], WITH_WORDS, "", ""),
    (["counts"], WITH_WORDS, "", ""),
    (["run"], b"nop //SIM INPUT: -i 1024 3\n//SIM INPUT\n///SIM INPUT: -i 1024 3\n", "", ""),
    (["run"], b"nope\n//SIM INPUT: -i 1024 3\n", NOT_UNDERSTOOD, NO_SUCH_OPCODE + ADVISES_WORDS),
    (["run"], b"nop\n" * 8190 + WITH_WORDS, "", ADVISES_WORDS),    # in two pieces of what is read
)
COMPLETE = ('source made/$0.bash; COMP_WORDS=($0 "$@"); COMP_CWORD=$#; _$0; echo "${COMPREPLY[*]}"')


class Manual(Place):

    def make(self):
        """Makes the page and the completions of the program's help."""
        os.mkdir(self.path("made"))
        self.expect("man/make", self.call("man/make", "bin/ilocfarm", "made"), (0, b"", b""))

    def test_page_is_the_helps(self):
        self.make()
        if self.read("made/ilocfarm.1") != self.read(PAGE):
            self.fail("man/ilocfarm.1 is not what `man/make PROGRAM man` writes")

    def test_page_has_no_slips(self):
        """Whatever mandoc says, but that a page which isn't installed here is named."""
        self.needs("mandoc")
        for name in COMMANDS:
            said = self.call("mandoc", "-T", "lint", f"man/{name}.1")[1].decode().splitlines()
            self.expect(name, [line for line in said if "referenced manual not found" not in line], [])

    def test_pages_beside(self):
        """Each option of the help of the other commands is on its page, and no other; so is each command."""
        for name, commands in (("ilocgrade", ()), ("ilocview", ("page", "timeline", "graph", "compare", "from-llvm")),
                               ("ilocpieces", ("split", "job", "join"))):
            helps = [self.call(name, *words, "--help")[1].decode() for words in ((), *((word,) for word in commands))]
            options = re.findall(r"^  (?:-\w.*?, )?--([a-z-]+)", "".join(helps), re.MULTILINE)
            items = re.findall(r"^\.It (.*)", self.text(f"man/{name}.1"), re.MULTILINE)
            named = [option for item in items for option in re.findall(r"(?:Fl|,) -([a-z-]+)", item)]
            self.expect(f"options of {name}", sorted({*named}), sorted({*options}))
            self.expect(f"commands of {name}", [word for word in commands if f"Cm {word}" not in items], [])

    def test_page_has_the_words_of_listings(self):
        """Each field, verdict and member that docs/LANGUAGE.md lists is on the page."""
        page = self.text("docs/LANGUAGE.md")
        listings = re.search("\n## Listings\n(.*)\n## Faults of the program\n", page, re.DOTALL)[1]
        named = re.findall(r"^- (`[^`]*`(?:, `[^`]*`)*): ", listings, re.MULTILINE)
        words = [word for words in named for word in re.findall("`([^`]+)`", words) if not word.startswith("line n: ")]
        page = " ".join(re.sub(r'^\.\w+ |"|\\&', "", self.text(PAGE), flags=re.MULTILINE).split())
        self.expect("words that the page lacks", ([word for word in words if word not in page], len(words) > 20),
                    ([], True))

    def test_page_examples(self):
        text = self.text(PAGE)
        commands = [command for part in LITERAL.findall(text) for command in COMMAND.findall(part)]
        named = {name for command, _ in commands for name in re.findall(r"\bilocfarm (\w+)", command)}
        self.expect("commands with an example", named, {*self.commands(), "help"})
        self.follows(commands)

    def test_help_in_three_ways(self):
        top = self.call("ilocfarm", "--help")
        self.expect("help", self.call("ilocfarm", "help"), top)
        self.expect("-h", self.call("ilocfarm", "-h"), top)
        missing = [limit for limit in (MOST_BYTES, MOST_BLOCKS, MOST_OPERATIONS, MAX_NUMBER)
                   if str(limit).encode() not in top[1]]
        self.expect("limits that the help leaves out", missing, [])
        for name in self.commands():
            shown = self.call("ilocfarm", name, "--help")
            self.expect(f"{name}: status", shown[0], 0)
            for words in ((name, "-h"), ("help", name)):
                self.expect(words, self.call("ilocfarm", *words), shown)
        for words in (("run", "--at", "2", "-h"), ("schedule", "--load", "1", "--help")):
            got = self.call("ilocfarm", *words, given=b"output 0\n")
            self.expect(words, got, self.call("ilocfarm", words[0], "--help"))

    def test_completes(self):
        """Of each command all options that its help lists, and what some lines offer."""
        self.make()
        helps = {name: self.call("ilocfarm", name, "--help")[1].decode() for name in self.commands()}
        options = {f"ilocfarm {name} --": " ".join(re.findall(r"^ +(?:-\w, )?(--[\w-]+)", text, re.MULTILINE))
                   for name, text in helps.items()}
        for line, offered in {**options, **COMPLETIONS}.items():
            done = self.call("bash", "-c", COMPLETE, *line.split(" "))
            self.expect(f"completions of {line}", done, (0, f"{offered}\n".encode(), b""))

    def test_completes_on_a_terminal(self):
        self.make()
        for name in COMMANDS:
            os.symlink(f"made/{name}.zsh", self.path(f"_{name}"))
        for name, (words, source) in SHELLS.items():
            self.needs(name)
            with terminal() as (screen, slave):
                shell = subprocess.Popen(words, cwd=self.folder, env={**self.environment, "TERM": "dumb"}, stdin=slave,
                                         stdout=slave, stderr=slave, start_new_session=True)
                try:
                    screen.type(f"{source}; PS1='> '\n")
                    for typed, there in TYPED:
                        screen.until(">")
                        screen.type(typed)
                        screen.until(there)
                        screen.type("\x15\n")      # an empty line, and the next prompt
                finally:
                    shell.kill()
                    shell.wait()

    def test_completes_in_fish(self):
        self.needs("fish")
        self.make()
        for typed, offered in IN_FISH:
            line = f"for each in made/*.fish; source $each; end; complete -C '{typed}'"
            told = self.call("fish", "--no-config", "-c", line, HOME=self.folder)
            self.expect(f"fish completes {typed}", told, (0, offered.encode(), b""))

    def test_tells_that_it_reads_a_terminal(self):
        """What a command reads is said on a terminal; nothing is by another, nor by one that is refused."""
        task = self.path("examples/first.iloc")
        for words, status, told in ((["run"], 0, "blocks"), (["simulate", "3"], 0, "blocks"),
                                    (["check"], 1, "blocks and rows"), (["check", "--task", task], 5, "rows"),
                                    (["explain", "--task", task], 5, "rows"), (["run", "--help"], 0, ""),
                                    (["--version"], 0, ""), (["help", "run"], 0, ""), (["run", "x"], 2, "")):
            with terminal() as (screen, slave):
                screen.type("\x04")
                done = subprocess.run([TESTED.program, *words], stdin=slave, capture_output=True, timeout=SECONDS)
            said = "".join(line for line in done.stderr.decode().splitlines(True) if "reading" in line)
            self.expect(f"{words}: says what it reads", said, READS_TERMINAL.format(told) if told else "")
            self.expect(f"{words}: status", done.returncode, status)

    def test_advises_on_a_terminal(self):
        """What helps is said below a fault where standard error is a terminal; elsewhere not a byte is."""
        for words, given, fault, advice in ADVISED:
            piped = subprocess.run([TESTED.program, *words], input=given, capture_output=True, timeout=SECONDS)
            said = piped.stderr.decode()
            self.expect(f"{words} {given}: said elsewhere", said, said if fault is None else fault)
            with terminal() as (screen, slave):
                done = subprocess.run([TESTED.program, *words], input=given, stdout=subprocess.PIPE, stderr=slave,
                                      timeout=SECONDS)
                self.expect(f"{words} {given}: said on a terminal", screen.lines(), (said + advice).split("\n"))
            self.expect(f"{words} {given}: ending", (done.returncode, done.stdout), (piped.returncode, piped.stdout))

    def test_names_of_files(self):
        """A file's name is answered, before the usage, by how a command is given the file; no refused advice is
        given."""
        for name in self.commands():
            status, out, err = self.call("ilocfarm", name, "task.iloc")
            is_told = f"ilocfarm {name} < FILE" in err.decode().partition("Usage")[0]
            self.expect(f"{name} task.iloc", (status, out, is_told), (2, b"", True))
        for words in (["run", "-1"], ["run", "--workers", "3"], ["check", "-x"], ["simulate", "--", "-1"]):
            self.expect(f"{words}: advises `--`", b"-- " in self.call("ilocfarm", *words)[2], False)

    def test_changes_have_the_version(self):
        """The first heading in CHANGELOG.md is the version that the program names."""
        first = re.search(r"^## (.+)", self.text("CHANGELOG.md"), re.MULTILINE)[1]
        self.expect("--version", self.call("ilocfarm", "--version"), (0, f"ilocfarm {first}\n".encode(), b""))
