"""What the prover says of edits."""
import re

from edit import BadEdit

PLACE = re.compile(
    r"(note: )?(?:what antt said of a `search` [^:]*: )?(?:\./)?(\S+?):\d+:\d+: (error: )?(?:(`[^`]*`): )?(.*)")
VERDICT = re.compile(r"fn \w+::(\S+): ")
QUOTED = re.compile(r"`[^`]*`")
# What is said of a text that can't be read. One that reads, and is false, is reported in other words.
UNREAD = re.compile(r"is not in scope|has no field|is no name|operand is missing|expected the end|cannot continue")
# What is said of a proof that names what the edit took away, and of what cites that proof.
GONE = re.compile(r"has no field|is not in scope|has no `|was not admitted")
GOES_ON = re.compile(r"\n +(?=has no field)")
STALE = re.compile(r"Run the lower steps again")
LAST = re.compile(r"only=\d+ proved=\d+")


class Said:
    """What a check of edited functions said, by function."""

    def __init__(self, status, lines):
        """Raises BadEdit where no function was judged."""
        self.is_all_proved, self.unproved = status == 0, set()
        self.in_bodies, self.in_proofs = {}, []
        lines = GOES_ON.sub(" ", "\n".join(lines)).splitlines()
        self.last = (lines or ["nothing was said"])[-1]
        if self.is_all_proved:
            return
        if status != 1 or not LAST.fullmatch(self.last) or any(map(STALE.search, lines)):
            raise BadEdit(f"it didn't reach the prover: {self.last}")
        self.read(lines)

    def read(self, lines):
        """What is said of a function's body precedes its verdict; what is said of its proof bears the proof's path."""
        above = []
        for line in lines:
            if found := VERDICT.match(line):
                self.in_bodies[found[1]] = above
                if not line.endswith(": proved"):
                    self.unproved.add(found[1])
                above = []
            elif (place := PLACE.match(line)) and (place[1] or place[3]):
                self.check_that_it_reads(place)
                (self.in_proofs if place[2].startswith("proofs/") else above).append(place)

    @staticmethod
    def check_that_it_reads(place):
        if place[3] and place[2].startswith("src/") and (not place[4] or UNREAD.search(QUOTED.sub("", place[5]))):
            raise BadEdit(f"the edited text can't be read: {place[0]}")

    def refusal(self, function):
        """Where the prover refused this function: the first goal that it couldn't prove. None where it is proved."""
        if self.is_all_proved or function in self.in_bodies and function not in self.unproved:
            return None
        folder = f"proofs/{function.replace('::', '/')}/"
        of_proof = [place[0] for place in self.in_proofs if place[2].startswith(folder)]
        goals = [goal for goal in of_proof if not GONE.search(goal)]
        goals += [place[0] for place in self.in_bodies.get(function, [])]
        if goals:
            return goals[0]
        if of_proof:
            raise BadEdit(f"it is refused only since a proof names what it took away: {of_proof[0]}")
        raise BadEdit(f"no goal of {function} is named: {self.last}")
