"""`tests/run --unproved`, with a stand-in for the toolchain's rt that says what became of each case."""
import contextlib
import io
import os
from unittest import mock

from harness import unproved
from harness.place import InFolder


class Unproved(InFolder):
    def ran(self, said, shown=""):
        """The status, and what is printed, where rt says and shows this on standard error and output."""
        self.write("said", said)
        self.write("shown", shown)
        self.script("rt", f'#!/bin/sh\n[ "$1 $2" = "try --cases" ] && cd {self.folder} && cat shown && cat said >&2\n')
        printed = io.StringIO()
        with mock.patch.dict(os.environ, PATH=f"{self.folder}:{os.environ['PATH']}"):
            with contextlib.redirect_stdout(printed):
                return unproved.main(), printed.getvalue()

    def test_counts(self):
        """A case passes that ends with its status, its standard error, and no wrong output; any other doesn't."""
        cases = unproved.chosen()
        said = [f"{'' if case.out else case.err.decode()}case={unproved.named(case)} run=ended status={case.status}\n"
                for case in cases]
        shown = "".join(f"== {unproved.named(case)}\n" for case in cases if not case.out)
        self.assertEqual(self.ran("".join(said), shown), (0, f"{len(cases)} passed, 0 failed\n"))
        for is_silent, change, why in (
                (False, lambda line, name: line.replace("status=", "status=1"), "status 1"),
                (False, lambda line, name: f"the output differs from `{name}.stdout`: at byte 0\n{line}", "the output"),
                (True, lambda line, name: f"case={name} run=no-answer proved=no\n", "no-answer in place of an end"),
                (True, lambda line, name: line.replace("ilocfarm: ", "ilocfarm; "), "the outputs "),
                (True, lambda line, name: "", "not run: ")):
            with self.subTest(why):
                at = next(k for k, case in enumerate(cases) if is_silent == (not case.out))
                changed = change(said[at], unproved.named(cases[at]))
                status, printed = self.ran("".join([*said[:at], changed, *said[at + 1:]]), shown)
                self.assertEqual((status, printed.splitlines()[-1]), (1, f"{len(cases) - 1} passed, 1 failed"))
                self.assertTrue(printed.startswith(f"FAILED {cases[at].name}: {why}"), printed)
        status, printed = self.ran("".join(said), shown + "7\n")
        self.assertEqual((status, printed.splitlines()[-1]), (1, f"{len(cases) - 1} passed, 1 failed"))

    def test_no_toolchain(self):
        with mock.patch.dict(os.environ, PATH=self.folder), contextlib.redirect_stdout(io.StringIO()) as printed:
            self.assertEqual(unproved.main(), 1)
        self.assertEqual(printed.getvalue(),
                         "NOT RUN: the toolchain's command rt is not on the PATH\n0 passed, 1 failed\n")
