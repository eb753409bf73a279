"""Completions of a command line for bash, zsh and fish."""
import argparse
import re
from dataclasses import dataclass

CHOICES = re.compile(r".*: ((?:\w+, )+\w+ or \w+)(?: \[.*)?")
FILES = ("FILE", "FOLDER", "CSV", "RESULTS", "PROGRAM", "BLOCKS")     # values that are files
MADE = "# Completions of {} for {}, made by man/make from its help."


@dataclass
class Option:
    short: str
    name: str       # without its hyphens
    value: str      # what its value is called; none for a flag
    about: str
    words: str = ""

    @classmethod
    def of(cls, action):
        """The option that a parser of argparse has."""
        short = next((word[1:] for word in action.option_strings if len(word) == 2), "")
        words = " ".join(map(str, action.choices or ()))
        value = "" if action.nargs == 0 else action.metavar or "WORD"
        return cls(short, action.option_strings[-1][2:], value if isinstance(value, str) else value[0], action.help,
                   words if value == "WORD" else "")

    def word(self):
        return f"--{self.name}"

    def choices(self):
        """The words that its value can be, which the help may list after a colon."""
        listed = CHOICES.fullmatch(self.about)
        return " ".join(re.split(", | or ", listed[1])) if listed else self.words

    def in_zsh(self):
        value = ":FILE:_files" if self.value in FILES else f":N:({self.choices()})" if self.choices() else ":N:"
        return f"'{self.word()}[{in_brackets(self.about)}]{value if self.value else ''}'"

    def in_fish(self):
        value = " -r" if self.value in FILES else f" -x -a '{self.choices()}'" if self.choices() else " -x"
        short = f" -s {self.short}" if self.short else ""
        return f"{short} -l {self.name}{value if self.value else ''} -d {quoted(self.about)}"


def options_of(parser):
    return [Option.of(action) for action in parser._actions if action.option_strings]


def in_brackets(text):
    """A text as zsh takes it within brackets and quotes."""
    return re.sub(r"([\[\]:'])", r"\\\1", text).replace("\\'", "'\\''")


def quoted(text):
    """A text as fish takes it."""
    return "'" + text.replace("'", "\\'") + "'"


@dataclass
class Tool:
    """A command line: what its commands do, and the options of each, and by "" those without a command."""
    name: str
    commands: dict
    options: dict
    takes_files: bool

    @classmethod
    def of(cls, parser):
        """What a parser of argparse takes."""
        below = [action for action in parser._actions if isinstance(action, argparse._SubParsersAction)]
        commands = {choice.dest: choice.help for action in below for choice in action._choices_actions}
        options = {"": options_of(parser)}
        for action in below:
            options.update((name, options_of(one)) for name, one in action.choices.items())
        return cls(parser.prog, commands, options, takes_files=True)

    def words(self, command):
        return " ".join(option.word() for option in self.options[command])

    def bash(self):
        options = [option for options in self.options.values() for option in options if option.value]
        valued = {option.word(): option.choices() for option in options}
        others = sorted(word for word, choices in valued.items() if not choices)
        typed = "-*" if self.takes_files else "*"
        top = " ".join([*self.commands, self.words("")])
        return [MADE.format(self.name, "bash"),
                f"_{self.name}() {{",
                "    local words",
                "    COMPREPLY=()",
                "    case $COMP_CWORD,${COMP_WORDS[1]},${COMP_WORDS[COMP_CWORD - 1]},${COMP_WORDS[COMP_CWORD]} in",
                *(f'    *,{word},*) words="{choices}" ;;' for word, choices in valued.items() if choices),
                f"    *,[\\<\\>]*|*,{',*|*,'.join(others)},*) return ;;",
                *([f'    1,*) words="{top}" ;;'] if self.commands else [f'    *,*,*,{typed}) words="{top}" ;;']),
                *(f'    *,{name},*,{typed}) words="{self.words(name)}" ;;' for name in self.options if name),
                *([f'    2,help,*) words="{" ".join(self.options).strip()}" ;;'] if "help" in self.commands else []),
                "    *) return ;;",
                "    esac",
                '    mapfile -t COMPREPLY < <(compgen -W "$words" -- "${COMP_WORDS[COMP_CWORD]}")',
                "}",
                f"complete -o bashdefault -o default -F _{self.name} {self.name}"]

    def zsh(self):
        files = ["'*:file:_files'"] if self.takes_files else []
        arguments = {name: " \\\n        ".join([*(option.in_zsh() for option in options), *files])
                     for name, options in self.options.items()}
        lines = [f"#compdef {self.name}", MADE.format(self.name, "zsh")]
        if not self.commands:
            return [*lines, f"_arguments {arguments['']}"]
        return [*lines,
                "local -a commands=(",
                *(f"    '{name}:{in_brackets(about)}'" for name, about in self.commands.items()),
                ")",
                "if (( CURRENT == 2 )) || [[ $words[2] = help && $CURRENT = 3 ]]; then",
                "    _describe command commands",
                "    return",
                "fi",
                "case $words[2] in",
                *(f"{name}) shift words; (( CURRENT-- ))\n    _arguments {words} ;;"
                  for name, words in arguments.items() if name),
                "esac"]

    def fish(self):
        lines, complete = [MADE.format(self.name, "fish")], f"complete -c {self.name}"
        first = " -n __fish_use_subcommand" if self.commands else ""
        lines += [f"{complete}{first} -f -a {name} -d {quoted(about)}" for name, about in self.commands.items()]
        for name, options in self.options.items():
            within = f" -n '__fish_seen_subcommand_from {name}'" if name else first
            lines += [f"{complete}{within}{option.in_fish()}" for option in options]
        if "help" in self.commands:
            lines.append(f"{complete} -n '__fish_seen_subcommand_from help' -f -a '{' '.join(self.options).strip()}'")
        return lines
