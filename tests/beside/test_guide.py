"""Cases of docs/: the commands of GRADING, STUDENTS and COMPARING print what is shown, and make their pictures."""
import re

from harness.place import Place, crates_of, shown_on
from harness.program import TOP, needs_bubblewrap

PICTURES = ("compare.svg", "timeline.svg")


class Guide(Place):
    def test_guide(self):
        self.follows(shown_on("docs/GRADING.md", but=("--program", "graph.svg")))
        for name in PICTURES:
            if self.read(f"docs/{name}") != self.read(name):
                self.fail(f"docs/{name} is not what the guide's commands make")

    def test_guide_on_programs(self):
        needs_bubblewrap()
        self.shell("cp -r examples/class/tasks examples/class/submissions .")
        self.follows([shown for shown in shown_on("docs/GRADING.md") if "programs" in shown[0]])

    def test_guide_on_graphs(self):
        self.needs("dot")
        self.follows([shown for shown in shown_on("docs/GRADING.md") if "graph.svg" in shown[0]])

    def test_other_guides(self):
        self.follows(shown_on("docs/COMPARING.md"))
        self.follows(shown_on("docs/STUDENTS.md"))

    def test_library(self):
        """docs/LIBRARY.md shows the program of crates/iloc_least, and the lines of crates.txt that it needs."""
        text = self.text("docs/LIBRARY.md")
        program = "".join(f"    {line}".rstrip() + "\n"
                          for line in self.text(f"{TOP}/crates/iloc_least/src/main.rt").splitlines())
        self.expect("the program is shown", program in text, True)
        shown = dict(re.findall(r"^    (iloc_\w+|yours): (.*)$", text, re.MULTILINE))
        shown["iloc_least"] = shown.pop("yours")
        self.expect("the crates below, and what yours needs", shown, crates_of("iloc_least"))
