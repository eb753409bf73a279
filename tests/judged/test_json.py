"""`check --json`: whole lines, as rows.cases has them, and of other rows what `check` lists in lines."""
import json
import random

from harness.program import Run, ending, told
from harness.suite import Check, table
from judged.students import RIGHT, WRONG
from judged.test_rows import JUDGED, LISTED, SHOWN, UNLIKE, UNREAD, WORDS, texts_of
from judged.test_students import handed_in
from oracle import alike
from oracle.judge import NOT_SAME, proposed
from oracle.operations import text_of


def lines_of(said):
    """What is listed in lines of what a line of JSON says."""
    claimed = f" claimed {said['claimed']}" if said["claimed"] not in (None, said["cycles"]) else ""
    head = "block {block} {0} {verdict} cycles {cycles} ours {ours} least {least}"
    yield head.format(said["name"] or "-", **said) + claimed
    memory = said["memory"]
    shown = " ".join(map(str, ["", "with", "--at", memory["at"], *memory["words"]])) if memory else ""
    if not said["rows"] and said["verdict"] != "lawful":
        yield "  no rows"
    if said["void"]:
        operation = said["void"].get("operation")
        yield f"  the block faults: {operation}" if operation else "  the block shows nothing"
    if said["difference"]:
        difference = {name: "none" if value is None else value for name, value in said["difference"].items()}
        yield "  " + {"output": "output {number}: {got} for {wanted}", "word": "word {address}: {got} for {wanted}",
                      "fault": "fault", "no_fault": "no fault"}[difference["kind"]].format(**difference) + shown
    is_told = said["verdict"] not in ("units", "unread")
    if said["left_out"] and is_told:
        yield "  left out {count}: {operation}".format(**said["left_out"])
    if said["added"] and is_told:
        yield "  added {count}: row {row}: {operation}".format(**said["added"])
    yield from ("  " + reason_of(reason) for reason in said["reasons"])
    if said["more"]:
        yield "  and {more} more".format(**said)


def reason_of(reason):
    forms = {
        "unread": "line {line}, row {row}: {problem}", "units": "row {row}: {text}: {rule}", "undecided": "undecided",
        "under_way": "{op} while {other} is under way to row {due}",
        "brings": "{op} reads r{register}, which {other} brings in row {due}",
        "replaced": "{op} reads r{register} of {other}, no longer of {lost}",
        "never_read": "{op}, whose result is never read", "order": "{op} {side} {other}",
        "for": "{op} for operation {number}: {wanted}", "like_none": "{op} like none of the block", "see": "see {op}"}
    named = {name: f"row {reason[row]}: {reason[op]}" for name, row, op in (
        ("op", "row", "operation"), ("other", "other_row", "other_operation"), ("lost", "lost_row", "lost_operation"))
             if reason.get(op)}
    return forms[reason["kind"]].format(**{"lost": "the start", **reason, **named})


def are_the_same(texts, *words):
    """With the same status, which says whether all pass, the same is listed in JSON as in lines, but for the totals."""
    kinds = set()
    for text in texts:
        given = text.encode("latin-1")
        status, out, err = ending([*WORDS, *words], given)
        got = ending([*WORDS, "--json", *words], given)
        said = [json.loads(line) for line in got[1].decode("ascii").splitlines()]
        lines = [line for one in said for line in lines_of(one)]
        due = out.decode("latin-1").splitlines()[:-1]
        if (got[0], got[2], lines, all(one["passes"] for one in said)) != (status, err, due, not status):
            yield f"{text!r}: {told(got)} beside {told((status, out, err))}"
        kinds |= {one["verdict"] for one in said}
    if len(kinds) < 3:
        yield f"no more than {kinds} were tried"


def undecided(count=400, others=0):
    """Rows that compute another graph than their block, too large to be told apart, of which each point has as many
    neighbours. Other blocks without operations have their share of the steps of the search."""
    chance = random.Random(8)
    own, other = (alike.regular(chance, count, 3) for _ in range(2))
    rows = proposed(1, "B1", alike.shuffled(chance, count, other))
    return text_of([alike.graph(count, own)]) + b"other:\n" * others + rows


def undecided_cases():
    """A line says so whether or not it is the verdict."""
    for verdict, words in ("void", []), ("undecided", ["--lawful"]):
        yield Run(f"judged/json/{verdict}_in_lines", ["check", *words], undecided(), (
            f"block 1 B1 {verdict} cycles 1600 ours 800 least 800\n  the block shows nothing\n  undecided\n"
            "total 1600 ours 800 least 800\n").encode(), b"", NOT_SAME)
        yield Run(f"judged/json/{verdict}", ["check", "--json", *words], undecided(), (
            f'{{"block":1,"name":"B1","verdict":"{verdict}","passes":false,"rows":1600,"cycles":1600,"ours":800,'
            '"least":800,"claimed":null,"void":{"kind":"shows_nothing"},"difference":null,"memory":null,'
            '"left_out":null,"added":null,"reasons":[{"kind":"undecided"}],"more":0,'
            f'"operations":[{",".join(["[null,null]"] * 1600)}]}}\n').encode(), b"", NOT_SAME)


def json_cases():
    yield from (listed.case(f"json/{name}", listed.in_json) for name, listed in LISTED.items() if listed.in_json)
    yield from undecided_cases()
    yield Check("judged/json/tables", are_the_same, texts_of(JUDGED, UNLIKE))
    yield Check("judged/json/lawful", are_the_same, texts_of(JUDGED), "--lawful")
    yield Check("judged/json/outputs", are_the_same, texts_of(JUDGED, SHOWN), "--outputs")
    yield Check("judged/json/listed", are_the_same, [listed.text for listed in LISTED.values()])
    yield Check("judged/json/drawn", are_the_same,
                [handed_in(seed, "usual", kind).decode() for seed, kind in enumerate((*RIGHT, *WRONG))])
    yield Check("judged/json/unread", are_the_same,
                [f"a:\noutput 0\nb:\nc: output 4\nblock 1 a\n{line}\nblock 3 c\n[ output 8 ]\n" for line in UNREAD])


load_tests = table(json_cases)
