""".ci/run with the repository's build and audit/run, and stand-ins for toolchain, suites and Debian's packages."""
import os
import shutil
import signal

from audit.test_run import GATES, LOW, Repository
from harness.place import until
from harness.program import SECONDS, TOP
from launcher.test_launcher import is_running

# As `rt ci` it proves low, and what lies above it once a wrong body is tried.
RT = """#!/bin/sh
[ "$1" = ci ] || { echo kit; exit; }
echo $$ >"$TEST/rt"
mkdir -p crates/low/out/rlib/low.rlib crates/ilocfarm/out
echo "rt: low proved"
until [ -e "$TEST/checked" ]; do sleep 0.02; done
[ ! -e "$TEST/fails" ] || { echo "rt: high NOT PROVED"; exit 1; }
while [ -e "$TEST/hold" ]; do sleep 0.02; done
touch crates/ilocfarm/out/ilocfarm
echo "3 passed, 0 failed"
"""
TESTS = """#!/bin/sh
echo "$*" >>"$TEST/suites"
[ ! -e "$TEST/dies" ] || kill -9 $$
echo "2 passed, 0 failed, 1 skipped"
"""
EARLY = "audit launcher/test_launcher pages"


class Gate(Repository):
    def setUp(self):
        super().setUp()
        for name in (".ci/run", "build", "launcher.sh", "HANDLES"):
            self.write(f"top/{name}", "")
            shutil.copy2(f"{TOP}/{name}", self.path(f"top/{name}"))
        self.write("top/crates.txt", "low:\nhigh: low\nilocfarm: high\n")
        self.write("top/tests/packages", "one  # a tool\n")
        for name, text in (("kit/bin/rt", RT), ("top/tests/run", TESTS), ("kit/bin/dpkg", "#!/bin/sh\nexit 1\n"),
                           ("kit/bin/apt-get", "#!/bin/sh\necho \"$*\" >>\"$TEST/got\"\nexit 100\n")):
            self.script(name, text)
        self.edit("first", "wrong", **GATES)

    def begun(self):
        os.makedirs(self.path("tmp"), exist_ok=True)
        return self.started(".ci/run", TMPDIR=self.path("tmp"))

    def gives(self, last, status):
        """The gate's lines, of which this is the last."""
        started = self.begun()
        lines = started.communicate(timeout=SECONDS)[0].splitlines()
        self.expect("ending", (started.returncode, lines[-1]), (status, last))
        self.has_ended()
        return lines

    def has_ended(self):
        pids = [self.text(name).strip() for name in ("rt", "child")]
        until("all has ended", lambda: not any(map(is_running, pids)))

    def test_counts(self):
        lines = self.gives("8 passed, 0 failed", 0)
        self.expect("what is shown", [LOW.strip() in lines, lines[-5].split(":")[0], *lines[-4:-1]],
                    [True, "refused high/first", "1 passed, 0 failed", *["2 passed, 0 failed, 1 skipped"] * 2])
        self.expect("suites", self.asked("suites"), [f"--short {EARLY}", f"--short --but {EARLY}"])
        if not os.getuid():
            self.expect("packages", [line.split()[-1] for line in self.asked("got")], ["update", "one"])

    def test_failing_body(self):
        self.edit("second", "other", **GATES)
        self.gives("8 passed, 1 failed", 1)

    def test_part_that_dies(self):
        self.write("dies", "")
        self.gives("4 passed, 2 failed", 1)

    def test_failing_build(self):
        """It is told at once, though a wrong body is being tried."""
        self.write("hold", "")
        self.write("fails", "")
        self.gives("0 passed, 1 failed", 1)
        self.expect("suites", self.asked("suites"), [f"--short {EARLY}"])

    def test_killed(self):
        self.write("hold", "")
        for number, status in (signal.SIGTERM, 1), (signal.SIGKILL, -9):
            started = self.begun()
            until("a wrong body is tried", lambda: self.asked("checked"))
            started.send_signal(number)
            self.expect(f"status by {number.name}", started.wait(SECONDS), status)
            self.has_ended()
            self.expect("files that are left", os.listdir(self.path("tmp")) == [], status == 1)
            os.remove(self.path("checked"))
