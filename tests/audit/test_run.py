"""audit/run in a repository of two small crates, with a toolchain that proves nothing.

In place of the prover is a script that says of each of two functions what its body is named for (SAID).
"""
import os
import shutil

from harness.place import InFolder, until
from harness.program import SECONDS, TOP

RT = """#!/bin/sh
echo "${PWD##*/} $*" >>"$TEST/asked"
mkdir -p out/rlib/low.rlib && touch out/rlib/low.rlib/format out/rlib/stamp
"""
RATTLE = """#!/bin/sh
echo $$ >"$TEST/child"
echo "$@" >>"$TEST/checked"
while [ -e "$TEST/hold" ]; do sleep 0.02; done
low=${*##*--extern low=}
cat "${low%% *}/format" >>"$TEST/libraries" 2>/dev/null
kept=${*##*--incremental }
cp "${kept%% *}"/* "$TEST" 2>/dev/null
worst=0
for name in f g; do
    case " $* " in *" --only $name "*) ;; *) continue ;; esac
    body=$(sed -n "s/fn $name() { \\(.*\\) }/\\1/p" src/*.rt)
    sed "s,high::f,high::$name,;s,proofs/f/,proofs/$name/," "$TEST/said/$body"
    status=$(cat "$TEST/said/$body.status")
    [ "$status" -le "$worst" ] || worst=$status
done
exit "$worst"
"""
GOAL = "note: src/lib.rt:1:1: it is not proved that what the function ensures holds when it returns (`returns`)\n"
NOT_PROVED = "fn high::f: no proof: expected answers in ./proofs/f/Answers.antt\nonly=1 proved=0\n"
# What the prover says of each body, and its status.
SAID = {
    "right": ("fn high::f: proved\nonly=1 proved=1\n", 0),
    "other": ("fn high::f: proved\nonly=1 proved=1\n", 0),
    "wrong": (GOAL + NOT_PROVED, 1),
    "unanswered": ("./proofs/f/Answers.antt:3:9: error: `returns`: the two types differ\n" + NOT_PROVED, 1),
    "searched": ("note: what antt said of a `search` in the proof that rattle made: src/lib.rt:1:4: error: `returns`: "
                 "give the call less to do\n" + NOT_PROVED, 1),
    "unread": ("src/lib.rt:1:10: error: expected an expression\n", 1),
    "misnamed": ("src/lib.rt:1:10: error: `returns`: `y` is not in scope\n" + NOT_PROVED, 1),
    "gone": ("./proofs/f/Answers.antt:3:9: error: `returns`: `c.x` is not in scope\n" + NOT_PROVED, 1),
    "gone_below": ("./proofs/f/Answers.antt:3:9: error: `returns`: record `In-Err` (nearest: .y)\n  has no field `x`\n"
                   + NOT_PROVED, 1),
    "no_function": ("rattle: --only f fits nothing\n", 2),
    "unknown": ("rattle: no verdict\n", 3),
}

LOW = "rt: low proved\n"        # what a build says
WANTS = "it needs a line 'only:', and a line 'old:' with a line 'new:' after it"
NO_START, UNREAD = "it didn't reach the prover: ", "the edited text can't be read: "
GONE = "it is refused only since a proof names what it took away: "
GATES, OF_G = {"gate": "gate: yes\n"}, {"only": "only: g\n", "file": "src/g.rt"}
# Edits that aren't refused as they have to be: the body that they make, what is said, and how they are made.
FAIL = {
    "still_proved": ("other", "it is still proved", {}),
    "old_text_missing": ("wrong", "an old text occurs 0 times in src/lib.rt, and not once", {"old": "left"}),
    "old_text_twice": ("wrong", "an old text occurs 2 times in src/lib.rt, and not once", {"old": "f"}),
    "text_that_does_not_read": ("unread", f"{NO_START}{SAID['unread'][0].strip()}", {}),
    "name_that_is_not_there": ("misnamed", f"{UNREAD}{SAID['misnamed'][0].splitlines()[0]}", {}),
    "proof_that_names_what_is_gone": ("gone", f"{GONE}{SAID['gone'][0].splitlines()[0]}", {}),
    "proof_that_names_it_on_two_lines":
    ("gone_below", f"{GONE}{' '.join(map(str.strip, SAID['gone_below'][0].splitlines()[:2]))}", {}),
    "function_that_is_not_there": ("no_function", f"{NO_START}{SAID['no_function'][0].strip()}", {}),
    "no_verdict": ("unknown", f"{NO_START}{SAID['unknown'][0].strip()}", {}),}
# Edits of another form, and what is said of them.
OTHER_FORMS = {
    "no_function_named": ("file: src/lib.rt\nold: right\nnew: wrong\n", WANTS),
    "no_new_text": ("only: f\nfile: src/lib.rt\nold: right\n", WANTS),
    "file_of_a_proof": ("only: f\nfile: proofs/f/Answers.antt\nold: a\nnew: b\n",
                        "a line of another form: file: proofs/f/Answers.antt"),
}


class Repository(InFolder):
    def setUp(self):
        super().setUp()
        for name, (text, status) in SAID.items():
            self.write(f"said/{name}", text)
            self.write(f"said/{name}.status", str(status))
        for name, text in (("rt", RT), ("rattle", RATTLE)):
            self.script(f"kit/bin/{name}", text)
        for name in os.listdir(f"{TOP}/audit"):
            if os.path.isfile(f"{TOP}/audit/{name}"):
                self.write(f"top/audit/{name}", "")
                shutil.copy2(f"{TOP}/audit/{name}", self.path("top/audit"))
        self.write("top/crates.txt", "low:\nhigh: low thiserror\n")
        self.write("top/crates/low/src/lib.rt", "\n")
        self.body("right")
        self.write("top/crates/high/src/g.rt", "fn g() { right }\n")

    def body(self, name):
        self.write("top/crates/high/src/lib.rt", f"fn f() {{ {name} }}\n")

    def edit(self, name, new, old="right", only="only: f\n", gate="", file="src/lib.rt"):
        self.write(f"top/audit/high/{name}.edit", f"{only}{gate}file: {file}\nold: {old}\nnew: {new}\n")

    def started(self, name, *words, **more):
        given = {"PATH": f"{self.path('kit/bin')}:{os.environ['PATH']}", "TEST": self.folder, **more}
        return self.process(self.path(f"top/{name}"), *words, env=given)

    def ended(self, started, said=None):
        out, err = started.communicate(said, timeout=SECONDS)
        self.expect("standard error", err, "")
        return started.returncode, out.splitlines()

    def status_and_lines(self, *words):
        return self.ended(self.started("audit/run", *words, RT_JOBS="1"), LOW)

    def asked(self, name):
        return self.text(name).splitlines() if os.path.exists(self.path(name)) else []


class Audit(Repository):
    def test_refused_at_a_goal(self):
        self.edit("returns_another", "wrong")
        self.edit("returns_nothing", "unanswered")
        self.edit("returns_what_is_far", "searched")
        others = ("returns_nothing", "unanswered"), ("returns_what_is_far", "searched")
        lines = [f"refused high/{name}: {SAID[said][0].splitlines()[0]}" for name, said in others]
        self.expect("ending", self.status_and_lines(),
                    (0, [f"refused high/returns_another: {GOAL.strip()}", *lines, "3 passed, 0 failed"]))
        checks = self.asked("checked")
        self.expect("checks, each first without edits", len(checks), 6)
        for word in ("--crate-name high", f"--extern low={self.path('top')}/crates/low/out/rlib/low.rlib", "--only f",
                     f"--extern thiserror={self.folder}/kit/rlibs/thiserror.rlib"):
            self.expect(word, all(word in words for words in checks), True)

    def test_crate_that_is_not_proved(self):
        self.body("wrong")
        self.edit("makes_it_right", "other", old="wrong")
        self.edit("keeps_it_wrong", "unanswered", old="wrong")
        status, lines = self.status_and_lines()
        self.expect("ending", (status, lines[0], lines[-1]),
                    (1, "FAILED high: it isn't proved without edits", "0 passed, 2 failed"))

    def test_the_gate_s_alone(self):
        """In a crate that the gate has proved, which isn't checked once more."""
        self.edit("first", "wrong", **GATES)
        self.edit("second", "other")
        self.expect("the gate", self.status_and_lines("--gate"),
                    (0, [f"refused high/first: {GOAL.strip()}", "1 passed, 0 failed"]))
        self.expect("checks", len(self.asked("checked")), 1)
        self.expect("last line of all", self.status_and_lines()[1][-1], "1 passed, 1 failed")

    def test_the_gate_s_by_one_check(self):
        """A check for edits of different functions; each has to be refused at a goal of its own."""
        self.edit("another", "wrong", **GATES)
        self.edit("third", "unanswered", **GATES, **OF_G)
        goals = [f"refused high/another: {GOAL.strip()}",
                 f"refused high/third: {SAID['unanswered'][0].splitlines()[0].replace('/f/', '/g/')}"]
        self.expect("the gate", self.status_and_lines("--gate"), (0, [*goals, "2 passed, 0 failed"]))
        self.expect("checks", ["--only f --only g" in line for line in self.asked("checked")], [True])
        self.edit("fourth", "other", **GATES, **OF_G)
        lines = [goals[0], "FAILED high/fourth: it is still proved", goals[1], "2 passed, 1 failed"]
        self.expect("with one more of a function", self.status_and_lines("--gate"), (1, lines))
        self.expect("checks", len(self.asked("checked")), 3)
        self.status_and_lines()
        self.expect("checks of all, first without edits", len(self.asked("checked")), 7)

    def test_one_that_does_not_read(self):
        """It keeps no other from being tried."""
        self.edit("bad", "unread", **GATES)
        self.edit("third", "unanswered", **GATES, **OF_G)
        status, lines = self.status_and_lines("--gate")
        self.expect("lines", [status, lines[0].split(":")[0], lines[-1]], [1, "FAILED high/bad", "1 passed, 1 failed"])

    def test_constant(self):
        """An edit of one is tried alone."""
        self.write("top/crates/high/src/g.rt", "const G: right = 1;\nfn g() { right }\n")
        self.edit("another", "wrong", **GATES)
        self.edit("third", "const G: left", old="const G: right", only="only: g\n", gate="gate: yes\n", file="src/g.rt")
        self.status_and_lines("--gate")
        self.expect("checks", ["--only f" in line for line in self.asked("checked")], [True, False])

    def test_begins_with_what_is_kept(self):
        self.edit("first", "wrong")
        self.write("top/crates/high/out/incremental/f.oantt", "proved")
        self.status_and_lines()
        self.expect("what a check begins with", self.text("f.oantt"), "proved")

    def test_crate_that_is_not_there(self):
        self.edit("first", "wrong")
        started = self.started("audit/run", "hihg")
        self.expect("usage", "audit/run [--gate] [CRATE..]" in started.communicate(timeout=SECONDS)[1], True)
        self.expect("status", started.returncode, 1)

    def test_builds_what_is_below(self):
        """But not in the gate, where the build does."""
        self.edit("first", "wrong", **GATES)
        for words in ["--gate"], []:
            self.status_and_lines(*words)
            self.expect(f"asked for with {words}", self.asked("asked"), [] if words else ["low lib --jobs 1"])

    def test_beside_a_build(self):
        """A crate's begin once those below it are proved, over the libraries of then."""
        self.edit("first", "wrong", **GATES)
        self.edit("second", "unanswered", **GATES)
        self.write("top/audit/low/first.edit", "only: f\ngate: yes\nfile: src/lib.rt\nold: right\nnew: wrong\n")
        self.write("top/crates/low/src/lib.rt", "fn f() { right }\n")
        started = self.started("audit/run", "--gate", RT_JOBS="1")
        until("low's is tried", lambda: self.asked("checked"))
        self.write("hold", "")
        self.write("top/crates/low/out/rlib/low.rlib/format", "of the build")
        started.stdin.write(f"rt: low: its tests are proved\n{LOW}rt: high is kept: as before\n")
        started.stdin.flush()
        until("high's are tried", lambda: len(self.asked("checked")) == 2)
        shutil.rmtree(self.path("top/crates/low/out"))
        os.remove(self.path("hold"))
        status, lines = self.ended(started, "3 passed, 0 failed\n")
        self.expect("ending", (status, len(lines), lines[-1]), (0, 4, "3 passed, 0 failed"))
        self.expect("crates", [line.split()[2] for line in self.asked("checked")], ["low", "high", "high"])
        self.expect("libraries", self.text("libraries"), "of the build" * 2)

    def test_build_that_ends_before(self):
        self.edit("first", "wrong", **GATES)
        ended = self.ended(self.started("audit/run", "--gate"), "rt: low NOT PROVED\n0 passed, 2 failed\n")
        self.expect("ending", ended, (1, ["FAILED high: a library below it isn't proved", "0 passed, 1 failed"]))

    def test_fails(self):
        for name, (body, why, how) in FAIL.items():
            with self.subTest(name):
                self.edit("bad", body, **how)
                self.edit("good", "wrong")
                status, lines = self.status_and_lines("high")
                self.expect("ending", (status, sorted(lines)[1], lines[-1]),
                            (1, f"FAILED high/bad: {why}", "1 passed, 1 failed"))

    def test_other_forms(self):
        for name, (text, why) in OTHER_FORMS.items():
            with self.subTest(name):
                self.write("top/audit/high/bad.edit", text)
                self.expect(name, self.status_and_lines(), (1, [f"FAILED high/bad: {why}", "0 passed, 1 failed"]))
