"""tests/run on modules of a few lines."""
import os
import shutil
import signal
from harness.place import InFolder, until
from harness.program import SECONDS, TOP
from launcher.test_launcher import is_running

MODULE = """import os, subprocess, time, unittest
class Case(unittest.TestCase):
    pids = f"{{os.getpid()}}"
    def takes(self, seconds):
        for event in "begun", "ended":
            with open("{folder}/events", "a") as file:
                file.write(f"{name} {{event}} {{self.pids}}\\n")
            time.sleep(seconds)
    def test(self):
        {body}
"""
# By module what its case does. The last two are of modules that measure.
MODULES = {
    "one/test_well": "print('words of one')",
    "one/test_fails": "self.fail('why it fails')",
    "one/test_lacks": "self.skipTest('a tool')",
    "two/test_dies": "print('so far', flush=True); os._exit(0)",
    "two/test_slow": "self.takes(1)",
    "two/test_slow_too": "self.takes(1)",
    "pages/test_hangs": "self.pids += ' %d' % subprocess.Popen(['sleep', '600']).pid; self.takes(600)",
    "cases/test_optima": "self.takes(0.5)",
    "hostile/test_sizes": "self.takes(0.5)",
}
# What is said of each of some.
SAID = {
    "one/test_well": "words of one\n",
    "one/test_fails": "AssertionError: why it fails\n",
    "one/test_lacks": "NOT RUN one.test_lacks.Case.test: a tool\n",
    "two/test_dies": "so far\nFAILED two/test_dies: it ended with status 0 and counted nothing\n",
}


class Suites(InFolder):
    def setUp(self):
        super().setUp()
        os.mkdir(self.path("tests"))
        shutil.copy2(f"{TOP}/tests/run", self.path("tests"))
        for folder in ("bench", "harness", "oracle"):
            os.symlink(f"{TOP}/tests/{folder}", self.path(f"tests/{folder}"))
        for name, body in MODULES.items():
            self.write(f"tests/{name}.py", MODULE.format(folder=self.folder, name=name, body=body))

    def started(self, *words):
        return self.process(self.path("tests/run"), "--program", "/bin/true", *words, cwd=self.folder)

    def ended(self, *words):
        """Status, what was said, and of that the last line."""
        started = self.started(*words)
        out, err = started.communicate(timeout=SECONDS)
        self.expect("standard error", err, "")
        return started.returncode, out, out.splitlines()[-1]

    def events(self):
        return [line.split()
                for line in self.text("events").splitlines()] if os.path.exists(self.path("events")) else []

    def test_each_is_shown_whole(self):
        status, out, last = self.ended("one", "two/test_dies")
        self.expect("ending", (status, last), (1, "1 passed, 2 failed, 1 skipped"))
        shown = dict(part.split("\n", 1) for part in out.split("== ")[1:])
        self.expect("modules", sorted(shown), sorted(SAID))
        for name, said in SAID.items():
            self.expect(f"{name} says {said}", said in shown[name], True)

    def test_side_by_side(self):
        """But those that measure, which run after the others, one by one."""
        last = self.ended("two/test_slow", "hostile", "two/test_slow_too", "cases")[2]
        self.expect("all", last, "4 passed, 0 failed, 0 skipped")
        events = [(name, event) for name, event, *_ in self.events()]
        slow, measuring = ["two/test_slow", "two/test_slow_too"], ["cases/test_optima", "hostile/test_sizes"]
        self.expect("others", {name for name, _ in events[:4]}, set(slow))
        if len(os.sched_getaffinity(0)) > 1:
            self.expect("of these", [event for _, event in events[:4]], ["begun", "begun", "ended", "ended"])
        self.expect("then", events[4:], [(name, event) for name in measuring for event in ("begun", "ended")])

    def test_chosen(self):
        for words, counts in ((["one/test_well"], "1 passed, 0 failed, 0 skipped"),
                              (["one", "two", "-k", "test_well", "-k", "lacks"], "1 passed, 0 failed, 1 skipped"),
                              (["--but", "two", "pages", "cases", "hostile"], "1 passed, 1 failed, 1 skipped"),
                              (["one", "two", "-k", "nosuch"], "0 passed, 0 failed, 0 skipped")):
            status, out, last = self.ended(*words)
            self.expect(f"{words}", (status, last), (int("1 passed, 0 failed, 0" not in counts), counts))
        self.expect("what hasn't a case isn't shown", out, f"{counts}\n")

    def test_mistakes(self):
        for words, said in (["--program", "nosuch"], "nosuch is no program"), (["nosuch"], "there is no suite nosuch"):
            started = self.started(*words)
            said_and_status = *started.communicate(timeout=SECONDS), started.returncode
            self.expect(f"{words}", said_and_status, ("", f"tests/run: {said}\n", 1))
        status, out, _ = self.ended("--help")
        self.expect("usage", (status, "--program" in out), (0, True))

    def test_signals(self):
        """What it began ends with it."""
        for number in signal.SIGINT, signal.SIGTERM, signal.SIGKILL:
            with self.subTest(number.name):
                started = self.started("pages", "one")
                until("a case has begun", self.events)
                started.send_signal(number)
                self.expect("status", started.wait(SECONDS), -number)
                until("all has ended", lambda: not any(map(is_running, self.events()[0][2:])))
                os.remove(self.path("events"))
