"""Cases of ilocpieces without an engine: each piece is run in turn."""
import os
import random
import re

from harness.place import Place

COMMANDS = (["run", "--at", "0", "1", "2"], ["simulate", "--load", "2"], ["schedule", "--mult", "1"], ["counts"],
            ["explain", "--load", "3"], ["compare"], ["compare", "--csv", "--store", "2"], ["compare", "--nodes", "9"],
            ["counts", "--csv"], ["trace", "3", "4"])
JOINED = {"run", "simulate", "trace", "schedule", "counts", "compare", "optimize", "explain"}
# What is given for an option's value.
VALUES = {"priority": "slack", "task": "blocks"}
FILES = 48
OPERATIONS = (b"nop", b"add r1, r2 => r3", b"loadI 4 => r1", b"output 4", b"store r1=>r2", b"loadAI r1,4 => r2",
              b"mult r3, r3 =>\tr1", b"output 3 // odd: a fault")
LABELS = (b"a:", b"nop :", b"r1\t:", b"\t long_Name9 \r:")
# What is no label, though it looks like one.
COMMENTS = (b"// b: nop", b" //c:", b"\t// not: a label // d:", b"//\xff\x00e: output 4", b"")
BLANKS = (b"", b" ", b"\t", b"\r", b"  \r ")
BAD = (b"f g: nop", b"add r1 r2 => r3", b"loadI 2147483648 => r1", b"/ h: nop", b"9:", b"i: : nop")


def line(draw, bad):
    if draw.random() < bad:
        return draw.choice(BAD)
    label = draw.choice(LABELS) if draw.random() < 0.3 else b""
    parts = [label, draw.choice(OPERATIONS) if draw.random() < 0.6 else b"", draw.choice(COMMENTS)]
    return b"".join(draw.choice(BLANKS) + part for part in parts) + draw.choice(BLANKS)


def random_file(draw):
    bad = draw.choice((0, 0, 0, 0.03))
    text = b"\n".join(line(draw, bad) for _ in range(draw.randrange(40)))
    return text + draw.choice((b"", b"\n"))


class Pieces(Place):
    def split(self, *options):
        """Cuts the file `blocks`, and gives the number of pieces."""
        return int(self.printed("ilocpieces", "split", "blocks", "pieces", *options))

    def run_pieces(self, *numbers, words=("counts",), program="ilocfarm"):
        """The statuses of their runs."""
        return [self.call("ilocpieces", "job", "pieces", program, *words, PIECE=str(number))[0] for number in numbers]

    def split_each(self, text=b"a: nop\nb: nop\nc: nop\n"):
        """Cuts a text into its blocks."""
        self.write("blocks", text)
        return self.split("--blocks", "1")

    def join(self):
        return self.call("ilocpieces", "join", "pieces")

    def joined_is_one_run(self, words, count):
        self.run_pieces(*range(1, count + 1), words=words)
        status, out, err = self.call("ilocfarm", *words, given=self.read("blocks"))
        got_status, got, said = self.join()
        ours = b"".join(line for line in said.splitlines(True) if not line.startswith(b"ilocpieces: "))
        self.expect(f"{words} of {count} pieces", (got_status, got, ours), (status, out, err))

    def test_random_files(self):
        """The joined bytes are one run's, or what standard error says before the piece's own line is."""
        draw, cuts, faults = random.Random(26), 0, 0
        for number in range(FILES):
            text = random_file(draw)
            self.write("blocks", text)
            option = draw.choice((["--bytes", str(draw.randrange(1, 200))], ["--blocks", str(draw.randrange(1, 5))]))
            count = self.split(*option)
            self.joined_is_one_run(COMMANDS[number % len(COMMANDS)], count)
            cuts += count > 1
            faults += self.join()[0] == 1
            parts = [self.read(f"pieces/{number}.iloc") for number in range(1, count + 1)]
            self.expect("the pieces", b"".join(parts), text)
            os.rename(self.path("pieces"), self.path(f"pieces{number}"))
        if cuts < FILES // 2 or not 0 < faults < FILES // 2:
            self.fail(f"{cuts} files were cut and {faults} are refused: too few to show anything")

    def options_of(self, command):
        """The words that a command's help lists, each with a value, but --priorities, which are a whole text's."""
        out = self.call("ilocfarm", command, "--help")[1].decode()
        options = re.findall(r"--([\w-]+)(?: <(\w+)>)?  ", out.partition("Options:\n")[2])
        return [["3", "4"]] * ("[WORD]" in out) + [
            [f"--{name}"] + [VALUES.get(name, "4")] * bool(value) for name, value in options if name != "priorities"]

    def test_every_command(self):
        """With each option of each command the joined bytes are one run's, or the command is refused by its name."""
        self.write("blocks", b"nop\nr1: " + self.read("examples/dot.iloc") + b"c:\nd: output 4\n"
                   + self.read("examples/book.iloc"))
        count, joined = self.split("--blocks", "2"), set()
        for command in self.commands():
            for option in [[], *self.options_of(command)]:
                self.run_pieces(*range(1, count + 1), words=(command, *option))
                ended = self.join()
                if ended[0] == 3:
                    self.expect(f"{command} {option}", (ended[1], command.encode() in ended[2]), (b"", True))
                else:
                    due = self.call("ilocfarm", command, *option, given=self.read("blocks"))
                    self.expect(f"{command} {option}", ended, due)
                    joined.add((command, *option[:1]))
        self.expect("joined without an option", {words[0] for words in joined if len(words) == 1}, JOINED)
        self.expect("tables", {words[0] for words in joined if words[1:] == ("--csv",)}, {"counts", "compare"})

    def test_cuts_before_labels_alone(self):
        pieces = [b"nop // a:\n// b:\n", b"\t c \t: nop\n\n//d:\nnop\re: nop\n", b" f :\r"]
        self.expect("pieces", self.split_each(b"".join(pieces)), 3)
        self.expect("index", self.read("pieces/index"), b"1 1 1\n2 3 1\n3 7 1\n")
        self.expect("each", [self.read(f"pieces/{number}.iloc") for number in (1, 2, 3)], pieces)

    def test_comments_first(self):
        self.expect("pieces", self.split_each(b"// what follows\n\n \r\na: nop\nb: nop\n"), 2)
        self.expect("index", self.read("pieces/index"), b"1 1 1\n2 5 1\n")
        self.joined_is_one_run(["counts"], 2)

    def test_nothing(self):
        self.write("blocks", b"")
        self.expect("pieces", self.split(), 1)
        for command in "counts", "run":
            self.joined_is_one_run([command], 1)

    def test_from_a_pipe(self):
        self.expect("pieces", self.shell("ilocpieces split <(printf 'a: nop\\nb:') pieces --blocks 1"), (0, b"2\n"))
        self.expect("pieces", [self.read(f"pieces/{number}.iloc") for number in (1, 2)], [b"a: nop\n", b"b:"])

    def test_more_than_one_run_takes(self):
        self.write("blocks", b"a: loadI 1 => r1\n" * 70_000)
        self.expect("pieces", self.split(), 2)
        self.expect("statuses", self.run_pieces(1, 2), [0, 0])
        lines = [b"block %d a cycles 1\n" % number for number in range(1, 70_001)]
        self.expect("joined", self.join(), (0, b"".join(lines) + b"total 70000\n", b""))

    def test_bytes_of_pieces(self):
        block = b"a: // " + b"-" * 9_000_000 + b"\n"
        self.write("blocks", block * 3)
        self.expect("pieces", self.split(), 3)
        self.write("blocks", b"a: nop\nb: // " + b"-" * 16_777_216 + b"\nc:\n")
        said = b"ilocpieces: the block from line 2 on has more than 16777216 bytes, which no run takes\n"
        self.expect("split", self.call("ilocpieces", "split", "blocks", "more"), (1, b"", said))
        self.expect("folder", os.path.exists(self.path("more")), False)

    def test_missing_pieces(self):
        self.expect("pieces", self.split_each(b"a: nop\n" * 7), 7)
        self.run_pieces(2, 6)
        self.expect("joined", self.join(), (3, b"", b"ilocpieces: not run to their end: 1,3-5,7\n"))

    def test_failed_piece(self):
        self.split_each()
        self.script("failing",
                    "#!/bin/sh\n[ $PIECE != 2 ] || { echo ilocfarm: out of memory >&2; exit 3; }\nexec ilocfarm $@\n")
        self.expect("statuses", self.run_pieces(1, 2, 3, program="./failing"), [0, 3, 0])
        self.expect("joined", self.join(), (3, b"", b"ilocpieces: piece 2 ended with 3: ilocfarm: out of memory\n"))

    def test_killed_piece(self):
        """The job is killed, or the program in it."""
        self.split_each()
        for killed in "$$", "$PPID":
            self.script("killed", f'#!/bin/sh\n[ $PIECE != 2 ] || {{ echo block 1; kill -KILL {killed}; exit 1; }}\n'
                                  'exec ilocfarm "$@"\n')
            self.run_pieces(1, 2, 3, program="./killed")
            self.expect("joined", self.join(), (3, b"", b"ilocpieces: not run to their end: 2\n"))
        self.expect("status", self.run_pieces(2), [0])
        self.expect("joined", self.join(), self.call("ilocfarm", "counts", given=self.read("blocks")))

    def test_other_words(self):
        self.split_each()
        self.run_pieces(1, 2)
        self.run_pieces(3, words=("counts", "--load", "1"))
        self.expect("joined", self.join(), (3, b"", b"ilocpieces: piece 3 was run as ['counts', '--load', '1'], "
                                                b"and piece 1 as ['counts']\n"))

    def test_broken_pieces(self):
        """A file that was changed or cut is no listing, and its piece is named."""
        self.split_each()
        for name, text, said in (
                ("2.result/status", b"", b"not run to their end: 2"),
                ("2.result/out", b"", b"piece 2 has 1 blocks, and its listing others"),
                ("2.result/out", b"block 1 b cycles 0\ntotal " + b"9" * 5000 + b"\n",
                 b"piece 2 has 1 blocks, and its listing others"),
                ("3.result/out", b"block 1 c cycles 0\ntotal 0 least 0\n",
                 b"the pieces' last lines differ: total 0, .."),
                ("index", b"1 1 1\n2 x 1\n", b"pieces/index: line 2 is none that ilocpieces split writes"),
                ("index", b"", b"pieces/index: line 1 is none that ilocpieces split writes")):
            self.run_pieces(1, 2, 3)
            self.write(f"pieces/{name}", text)
            self.expect(name, self.join(), (3, b"", b"ilocpieces: " + said + b"\n"))

    def test_first_fault(self):
        """The first fault decides, whatever became of the pieces after it."""
        self.split_each(b"a: nop\n// b\nb: nop\nadd\nc: add\n")
        self.run_pieces(1, 2)
        said = b"ilocfarm: line 4: not understood\nilocpieces: this is line 2 of pieces/2.iloc\n"
        self.expect("joined", self.join(), (1, b"", said))
        self.run_pieces(3)
        self.expect("joined", self.join(), (1, b"", said))

    def test_priorities(self):
        """Each piece has the lines of its blocks, the last one all that are left; faults are those of one run."""
        text, most = b"a: nop\nloadI 1 => r1\nadd r1, r1 => r2\nb:\nc: output 4\nd: output 8\n", b"7 8\n\r\n9"
        self.write("blocks", text)
        self.write("my own", most)
        count = self.split("--blocks", "1", "--priorities", "my own")
        self.expect("lines", [self.read(f"pieces/{k}.my own") for k in (1, 2, 3, 4)], [b"7 8\n", b"\r\n", b"9", b""])
        said = b"ilocpieces: this is %s of pieces/%d.iloc\n"
        for numbers, changed, told in (
                (b"7 8\n\n9\n4\n", text, b""), (most, text, said % (b"block 1", 4)),
                (b"7 8\n\n9 9\n4\n5", text, said % (b"block 1", 3)), (b"7\n\n9\n4\n5", text, said % (b"block 1", 1)),
                (b"7 8\n\n9\n4\n5", text, said % (b"block 2", 4)), (b"7\n", text + b"nope\n", said % (b"line 2", 4))):
            self.write("my own", numbers)
            self.write("blocks", changed)
            self.call("rm", "-r", "pieces")
            self.expect("pieces", self.split("--blocks", "1", "--priorities", "my own"), count)
            for command in ("counts", "compare"):
                self.run_pieces(1, 2, 3, 4, words=(command, "--priorities", "pieces/%.my own"))
                status, out, err = self.call("ilocfarm", command, "--priorities", "my own", given=changed)
                self.expect(f"{command} by {numbers}", self.join(), (status, out, err + told))
        self.write("other/my own", b"")
        for names in (["iloc"], ["result"], ["my own", "other/my own"]):
            words = [word for name in names for word in ("--priorities", name)]
            said = ("ilocpieces: files of priorities need names of their own, other than iloc and result: "
                    f"{', '.join(name.split('/')[-1] for name in names)}\n")
            self.expect(f"{names}", self.call("ilocpieces", "split", "blocks", "more", *words), (1, b"", said.encode()))

    def test_mistakes(self):
        self.write("blocks", b"a: nop\n")
        for words in (["split"], ["split", "blocks", "more", "--bytes", "0"],
                      ["split", "blocks", "more", "--blocks", "65536"], ["join"],
                      ["join", "--all", "pieces"], ["job", "pieces", "ilocfarm", "counts"], ["job", "pieces"]):
            status, out, err = self.call("ilocpieces", *words)
            self.expect(f"{words}", (status, out, bool(err)), (2, b"", True))
        self.split()
        for words in (["split", "blocks", "pieces"], ["split", "none", "more"], ["join", "none"]):
            status, out, err = self.call("ilocpieces", *words)
            self.expect(f"{words}", (status, out, err.startswith(b"ilocpieces: ")), (4, b"", True))
        self.expect("nothing was made", sorted(os.listdir(self.path("pieces"))), ["1.iloc", "index"])
