"""What is said of wrong words: what is wrong, and what would be right."""
from harness.program import Run, ending
from harness.suite import table

UNMENDED = "error: unexpected argument '{}' found\n\n  tip: {}\n\nUsage: "
NO_DIGIT = "error: invalid value '{}' for '{} <N>': invalid digit found in string\n\n  tip: N is {}\n\nFor more"
WORKERS = "workers are given by --workers N, in schedule, counts, compare, optimize and explain"
LATENCIES = "latencies are given by --load N, --store N and --mult N"
VERSION = "ilocfarm --version prints the version"
# Words, and how what is said of them begins.
WORDS = (
    ("first.iloc", "error: unrecognized subcommand 'first.iloc'\n\n"
                   "  tip: a file is given by \"<\": ilocfarm COMMAND < FILE\n\nUsage: "),
    ("tasks/first", "error: unrecognized subcommand 'tasks/first'\n\n"
                    "  tip: a file is given by \"<\": ilocfarm COMMAND < FILE\n\nUsage: "),
    ("schedule first.iloc", UNMENDED.format("first.iloc", 'a file is given by "<": ilocfarm schedule < FILE')),
    ("first", "error: unrecognized subcommand 'first'\n\nUsage: "),
    ("-j 4", UNMENDED.format("-j", WORKERS)), ("run -j4", UNMENDED.format("-j", WORKERS)),
    ("schedule -j 4", UNMENDED.format("-j", WORKERS)),
    ("-v", UNMENDED.format("-v", VERSION)), ("check -v", UNMENDED.format("-v", VERSION)),
    ("--latency 3", UNMENDED.format("--latency", LATENCIES)),
    ("schedule --latency=3", UNMENDED.format("--latency", LATENCIES)),
    ("schedule --workers auto", NO_DIGIT.format("auto", "--workers", "a number from 1 to 8")),
    ("schedule --workers 1.5", NO_DIGIT.format("1.5", "--workers", "a number from 1 to 8")),
    ("optimize --nodes many", NO_DIGIT.format("many", "--nodes", "a number from 0 to 100000")),
    *((f"schedule {option} x", NO_DIGIT.format("x", option, "a number from 1 to 16"))
      for option in ("--load", "--store", "--mult")),
    ("run --at 0x400", NO_DIGIT.format("0x400", "--at", "a multiple of 4, from 0 to 65532")),
)


def words_case(words, begins):
    """What is said of words begins so."""
    def front(given_words, given):
        status, out, err = ending(given_words, given)
        return status, out, err[:len(begins)]

    return Run(f"messages/{words}", words.split(), b"", b"", begins.encode(), 2, front)


def message_cases():
    return [words_case(*case) for case in WORDS]


load_tests = table(message_cases)
