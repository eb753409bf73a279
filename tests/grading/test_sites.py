"""One student in Gradescope's autograder and in a GitHub workflow; and a class's report in a browser."""
import json
import os
import re

from grading.test_class import BOTH, CLASS, Graded
from harness.browser import LEAST_CONTRAST, Browser, contrast

BEN = f"{CLASS}/ben"


class Sites(Graded):
    def test_gradescope(self):
        """results.json has the fields that Gradescope reads, and status 0 whatever the student did."""
        for name, points, said, cycles in ("ada", 10, "passed", 16), ("ben", 0, "failed", 1_000_000):
            self.expect(name, self.printed("ilocgrade", BOTH, f"{CLASS}/{name}", "--gradescope", "results.json"), b"")
            made = json.loads(self.read("results.json"))
            seconds, output = made.pop("execution_time"), made["tests"][0].pop("output").splitlines()
            self.expect("outputs", (type(seconds), output[0].partition(".")[0]), (float, f"both: {points} points"))
            self.expect("results", made, {
                "score": points, "output": f"{points // 10} of 1 tasks passed.", "visibility": "visible",
                "stdout_visibility": "hidden", "tests": [{
                    "name": "both", "number": "1", "score": points, "max_score": 10, "status": said,
                    "output_format": "text", "visibility": "visible"}],
                "leaderboard": [{"name": "points", "value": points, "order": "desc"},
                                {"name": "cycles", "value": cycles, "order": "asc"}]})
        self.expect("feedback", output[1], "Word 1 that your rows print is 3; it should be 7.")

    def autograder(self, name, said=b""):
        """The results of the autograder's files in a folder as Gradescope has it."""
        self.shell(f"rm -rf autograder; mkdir -p autograder/source; cp -rL {CLASS}/{name} autograder/submission;"
                   f"cp -rL {BOTH} autograder/source/tasks; ln -s $PWD/installed autograder/source/ilocfarm")
        status, _, err = self.call("grading/gradescope/run_autograder", AUTOGRADER=self.path("autograder"))
        self.expect("status", (status, err), (0, said))
        return json.loads(self.read("autograder/results/results.json"))

    def test_autograder(self):
        """The files that a course copies, with an installed ilocfarm; a task that can't be graded blames nobody."""
        self.call("./install", self.path("installed"), "bin/ilocfarm")
        self.expect("scores", [self.autograder(name)["score"] for name in ("ben", "ada")], [0, 10])
        self.shell("rm installed/bin/ilocfarm bin/ilocfarm")
        made = self.autograder("ben", b"ilocgrade: ilocfarm is not on the PATH\n")
        self.expect("failed", (made["score"], "no fault of yours" in made["output"]), (0, True))

    def test_in_a_clone(self):
        """Where no ilocfarm is on the PATH, the one of the clone judges."""
        self.shell("mkdir clone; cp -rL grading charts clone; mv bin/ilocfarm clone")
        self.expect("graded", self.call("clone/grading/ilocgrade", BOTH, CLASS)[0], 0)

    def test_github(self):
        """Annotations lead to the line; students' texts are no commands of the runner."""
        status, out, err = self.call("ilocgrade", BOTH, BEN, "--github")
        self.expect("ben", (status, err), (1, b""))
        lines = out.decode().splitlines()
        stopped = re.fullmatch(r"::stop-commands::(\w{32})", lines[0])[1]
        error = next(line for line in lines if line.startswith("::error "))
        self.expect("said apart", lines.index(f"::{stopped}::") < lines.index(error), True)
        self.expect("error", error.startswith(f"::error file={BEN}/both.rows,line=8::both: 0 points. Wrong."), True)
        self.expect("ada", self.call("ilocgrade", BOTH, f"{CLASS}/ada", "--github")[0], 0)
        self.write("eve/both.rows", b"[ nop ; nop ]\n::error::a\r##[add-mask]b\n")
        status, out, _ = self.call("ilocgrade", BOTH, "eve", "--github")
        begun = [line for line in out.decode().splitlines() if line.lstrip().startswith("::")]
        self.expect("commands", (status, len(begun)), (1, 3))

    def test_report_in_a_browser(self):
        """The report on light and dark ground and on a narrow screen: each mark opens, and nothing is cut or faint."""
        self.call("ilocgrade", BOTH, CLASS)
        browser = Browser()
        self.addCleanup(browser.close)
        for width, scheme in (1200, "light"), (1200, "dark"), (400, "light"):
            browser.size(width, 800)
            browser.seen_on("screen", scheme)
            browser.open(self.path("grades/report.html"))
            browser.value("document.querySelectorAll('details').forEach(each => { each.open = true; })")
            self.expect("width", browser.value("document.documentElement.scrollWidth <= innerWidth"), True)
            colours = browser.value("[...document.querySelectorAll('td, th')].map(cell => getComputedStyle(cell))"
                                    ".map(style => [style.color, style.backgroundColor].join('; '))")
            faint = [pair for pair in set(colours) if contrast(*pair.split("; ")) < LEAST_CONTRAST]
            self.expect("texts of too little contrast", faint, [])
        names, verdict = sorted(os.listdir(self.path(CLASS))), ".legend [data-verdict=units]"
        for what, button, due in (("by name", "thead button", names), ("from Z on", "thead button", names[::-1]),
                                  ("verdict", verdict, ["cem"]), ("all", verdict, names[::-1]),
                                  ("by points", "th:nth-child(3) button", ["ivy", "dan", "ada", "fay"])):
            browser.value(f"document.querySelector('{button}').click()")
            shown = browser.value("[...document.querySelector('tbody').rows].filter(row => !row.hidden)"
                                  ".map(row => row.cells[0].textContent)")
            self.expect(what, shown[:len(due)] if what == "by points" else shown, due)
        tree = browser.tree()
        self.expect("rows", (sum(role == "row" for role, _ in tree), ("heading", "Grades") in tree), (19, True))
        self.expect("problems", browser.problems, [])
