"""Options that a command's help doesn't list are refused, and so are latencies and workers that it excludes."""
import re

from harness.program import ALL, ending, told
from harness.suite import Check, table
from language import LONGEST_LATENCY

MOST = {"--load": LONGEST_LATENCY, "--store": LONGEST_LATENCY, "--mult": LONGEST_LATENCY, "--workers": 8}


def isnt_refused(words, said):
    status, out, err = end = ending(words)
    if (status, out) != (2, b"") or not err.startswith(f"error: {said}\n".encode()):
        yield told(end)


def option_checks():
    helps = {command: ending(["help", command])[1].decode() for command in (*ALL, "lint")}
    options = {command: {*re.findall(r"^ +(?:-h, )?(--[\w-]+)", listed, re.M)} for command, listed in helps.items()}
    for command, own in options.items():
        refused = [([command, option], f"unexpected argument '{option}' found")
                   for option in set().union(*options.values()) - own]
        refused += [([command, option, str(value)],
                     f"invalid value '{value}' for '{option} <N>': {value} is not in 1..={MOST[option]}")
                    for option in MOST.keys() & own for value in (0, MOST[option] + 1)]
        for words, said in refused:
            yield Check(f"options/{'_'.join(words)}", isnt_refused, words, said)


load_tests = table(option_checks)
