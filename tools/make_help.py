#!/usr/bin/env python3
"""Makes what people are told of the commands, from the table tools/commands.py: docs/COMMANDS.md, the man page docs/memplan.1,
completions for bash and zsh in tools/completion, and tools/help.sh, the help at a terminal.

usage: make_help.py            writes these files
       make_help.py --check    compares them with what would be written; the last line is 'N passed, M failed'
"""
import re
import shlex
import sys
import textwrap
from pathlib import Path
from typing import Callable, Dict, Iterable, Iterator, List, Tuple

sys.dont_write_bytecode = True
from commands import AT_MOST_ONE, COMMANDS, FILE, INPUT, INPUTS, STATUSES, Command, Option  # noqa: E402: so that nothing is written beside it

ROOT = Path(__file__).resolve().parent.parent
MADE = "Made by tools/make_help.py of tools/commands.py."
MOST_COLUMNS = 120  # of a page
DATE = "2026-12-01"  # of the man page: when the commands changed last
ABOUT = "memplan orders tasks so that their temporary data needs as little memory as possible, and proves it."
WORDS = (
    "The command comes first, then its options in any order, each at most once: `--name value`, or `--name=value`. "
    "A value is not empty and does not begin with a hyphen. Files are read by place, so no pipe will do; "
    "`/dev/stdin` is standard input, where that is a file."
)
HELP = (
    "At a terminal `./memplan help` and `./memplan help plan` say what stands here. Where words or files are refused, what is wrong is said below the "
    "program's own line, on standard error; where that is no terminal, all that is written is the program's own. What `make install` puts into bin is "
    "the program alone: its help is `man memplan`, and the completions for bash and zsh. To source a completion here: `. tools/completion/memplan.bash`. "
    "`tools/explain` says of any refusal, with its file, what it means:"
)
ALL: Dict[str, Option] = {}
# What an option takes where it is not what the first command that has it says, by the command and the option.
OTHERWISE: Dict[Tuple[str, str], str] = {}
for _command in COMMANDS:
    for _option in _command.options:
        if ALL.setdefault(_option.name, _option).value != _option.value:
            OTHERWISE[_command.name, _option.name] = _option.value
INPUT_NAMES = {option.name for option in INPUT}


def input_word(command: Command) -> str:
    """INPUT, TREE or MATRIX, where the usage of the command has it; else nothing."""
    return next((word for word in re.findall("[A-Z]+", command.usage) if word in INPUTS), "")


def own_options(command: Command) -> Iterator[Option]:
    """The options that do not stand for INPUT, TREE or MATRIX."""
    return (option for option in command.options if not (input_word(command) and option.name in INPUT_NAMES))


def inputs_of(command: Command) -> Iterator[Tuple[str, str]]:
    """INPUT with what it stands for, and so on down to MATRIX; nothing where the usage has none."""
    names = list(INPUTS)
    word = input_word(command)
    return ((name, INPUTS[name][0]) for name in (names[names.index(word) :] if word else []))


def sentence(text: str) -> str:
    return f"{text[0].upper()}{text[1:]}."


def own_statuses(command: Command) -> str:
    return " ".join(f"Status {number}: {when}." for number, when in command.statuses.items())


# ---- docs/COMMANDS.md


def paragraph(text: str, indent: str = "") -> List[str]:
    """Lines of a page, which break no code; those after the first are indented, as in an item of a list."""
    first, *words = re.findall(r"(?:`[^`]*`|[^\s`])+", text)
    lines = [first]
    for word in words:
        if len(lines[-1]) + 1 + len(word) > MOST_COLUMNS:
            lines.append(indent + word)
        else:
            lines[-1] += " " + word
    return lines


def items(texts: Iterable[str]) -> List[str]:
    return [line for text in texts for line in paragraph(text, "  ")]


def option_line(option: Option) -> str:
    return f"- `--{option.name} {option.value}`: {option.says}"


def page_block(command: Command) -> List[str]:
    words, prints = command.example
    status = f" {own_statuses(command)}" if command.statuses else ""
    return [
        f"## {command.name}",
        "",
        *paragraph(f"{sentence(command.purpose)} `memplan {command.name} {command.usage}`"),
        *items(option_line(option) for option in own_options(command)),
        *items([f"- prints {command.prints}.{status}"]),
        "```",
        f"$ ./memplan {words}",
        *prints.split("\n"),
        "```",
        "",
    ]


def page() -> str:
    lines = [
        "# Commands",
        "",
        f"<!-- {MADE} -->",
        "",
        *paragraph(f"{WORDS} [FORMATS.md](FORMATS.md) and [PLANS.md](PLANS.md) have the files, [REPORTS.md](REPORTS.md) the reports and the refusals."),
        "",
        *paragraph(HELP),
        "",
        "```",
        "$ ./memplan replay --tree examples/cycle.tree --order examples/two.order | tools/explain --tree examples/cycle.tree",
        "examples/cycle.tree, line 3: 2 0 0 1",
        "The parents of node 1 lead round in a ring and to no root: 1, 2, 1.",
        "The parent of a root is 0, and nodes are numbered from 1: does the file count from 0?",
        "```",
        "",
        "## Inputs",
        "",
        *items(f"- {name} is {says}" for name, (says, _) in INPUTS.items()),
        *items(option_line(option) for option in INPUT),
        "",
    ]
    for command in COMMANDS:
        lines += page_block(command)
    lines += ["## Statuses", "", *items(f"- {number}: {says}" for number, says in STATUSES.items())]
    return "\n".join(lines) + "\n"


# ---- docs/memplan.1


def guarded(line: str) -> str:
    """A line of text that roff does not take for a request."""
    return f"\\&{line}" if line.startswith((".", "'")) else line


def roff(text: str) -> str:
    """A text as roff: what stands between backquotes bold."""
    return re.sub(r"`([^`]*)`", r"\\fB\1\\fR", text.replace("\\", "\\e").replace("-", "\\-"))


def roff_paragraph(text: str) -> List[str]:
    return [guarded(line) for line in textwrap.wrap(roff(text), 78, break_on_hyphens=False, break_long_words=False)]


def roff_usage(text: str) -> str:
    """A usage: options bold, what stands for a value in italics."""
    return re.sub(r"\b([A-Z]{1,6})\b", r"\\fI\1\\fR", re.sub(r"(--\w+)", lambda it: f"\\fB{roff(it[1])}\\fR", text))


def roff_option(option: Option) -> List[str]:
    return [".TP", roff_usage(f"--{option.name} {option.value}"), *roff_paragraph(sentence(option.says))]


def manual_block(command: Command) -> List[str]:
    words, prints = command.example
    lines = [f".SS {command.name}", f"\\fBmemplan {command.name}\\fR {roff_usage(command.usage)}", ".PP", *roff_paragraph(sentence(command.purpose))]
    for option in own_options(command):
        lines += roff_option(option)
    lines += [".PP", *roff_paragraph(f"Prints {command.prints}. {own_statuses(command)}")]
    return [*lines, ".PP", ".EX", *(guarded(roff(line)) for line in [f"$ memplan {words}", *prints.split("\n")]), ".EE"]


def manual() -> str:
    lines = [f'.\\" {MADE}', f".TH MEMPLAN 1 {DATE} memplan"]
    lines += [".SH NAME", "memplan \\- order tasks so that their data needs least memory"]
    lines += [".SH SYNOPSIS", "\\fBmemplan\\fR \\fIcommand\\fR \\fIoptions\\fR"]
    lines += [".SH DESCRIPTION", *roff_paragraph(ABOUT), ".PP", *roff_paragraph(WORDS), ".SH INPUTS"]
    for name, (says, _) in INPUTS.items():
        lines += [".TP", f"\\fI{name}\\fR", *roff_paragraph(sentence(says))]
    for option in INPUT:
        lines += roff_option(option)
    lines.append(".SH COMMANDS")
    for command in COMMANDS:
        lines += manual_block(command)
    lines.append(".SH EXIT STATUS")
    for number, says in STATUSES.items():
        lines += [".TP", str(number), *roff_paragraph(sentence(says))]
    lines += [".SH NOTES", *roff_paragraph("The examples read files of the folder examples of memplan's sources; docs/FORMATS.md there has the formats.")]
    return "\n".join(lines) + "\n"


# ---- completions


def names_of(command: Command) -> str:
    return " ".join(f"--{option.name}" for option in command.options)


def bash_completion() -> str:
    words = [f"        {command}--{name}) words=\"{value.replace('|', ' ')}\" ;;" for (command, name), value in OTHERWISE.items()]
    words += [f"        *--{option.name}) words=\"{' '.join(option.words())}\" ;;" for option in ALL.values() if option.words()]
    files = " | ".join(f"*--{option.name}" for option in ALL.values() if option.value == FILE)
    numbers = " | ".join(f"*--{option.name}" for option in ALL.values() if option.value != FILE and not option.words())
    options = [f"                {command.name}) words=\"{names_of(command)}\" ;;" for command in COMMANDS]
    return "\n".join(
        [
            "# Completion of the words of memplan, for bash: source it, or put it where bash-completion looks.",
            f"# {MADE}",
            "_memplan() {",
            "    local word=${COMP_WORDS[COMP_CWORD]} before=${COMP_WORDS[COMP_CWORD - 1]} words= option",
            "    COMPREPLY=()",
            "    # bash cuts `--name=value` into three words",
            "    [ \"$before\" != = ] || before=${COMP_WORDS[COMP_CWORD - 2]}",
            "    [ \"$word\" != = ] || word=",
            "    case ${COMP_WORDS[1]}$before in",
            *words,
            f"        {files})",
            "            compopt -o filenames 2>/dev/null",
            "            mapfile -t COMPREPLY < <(compgen -f -- \"$word\")",
            "            return",
            "            ;;",
            f"        {numbers}) return ;;",
            "        *)",
            "            case ${COMP_WORDS[1]} in",
            *options,
            "            esac",
            f"            [ \"$COMP_CWORD\" -gt 1 ] || words=\"{' '.join(command.name for command in COMMANDS)}\"",
            "            # each option once",
            "            for option in \"${COMP_WORDS[@]:2}\"; do",
            "                [ \"$option\" = \"$word\" ] || words=\" $words \" words=${words/ $option / }",
            "            done",
            "            ;;",
            "    esac",
            "    mapfile -t COMPREPLY < <(compgen -W \"$words\" -- \"$word\")",
            "}",
            "complete -F _memplan memplan ./memplan",
            "",
        ]
    )


def zsh_option(option: Option) -> str:
    says = re.sub(r"([\[\]:])", r"\\\1", option.says.replace("`", ""))
    action = "_files" if option.value == FILE else f"({' '.join(option.words())})" if option.words() else ""
    return shlex.quote(f"--{option.name}=[{says}]:{option.value.replace(':', '')}:{action}")


def zsh_completion() -> str:
    lines = [
        "#compdef memplan",
        "# Completion of the words of memplan, for zsh: put it into a folder of fpath.",
        f"# {MADE}",
        "local -a commands",
        "commands=(",
        *(f"  {shlex.quote(f'{command.name}:{command.purpose}')}" for command in COMMANDS),
        ")",
        "if (( CURRENT == 2 )); then",
        "  _describe command commands",
        "  return",
        "fi",
        "shift words",
        "(( CURRENT-- ))",
        "case $words[1] in",
    ]
    for command in COMMANDS:
        lines.append(f"  {command.name})\n    _arguments \\")
        lines.append(" \\\n".join(f"      {zsh_option(option)}" for option in command.options))
        lines.append("    ;;")
    return "\n".join([*lines, "esac", ""])


# ---- tools/help.sh


def wrapped(text: str, indent: str = "") -> List[str]:
    return textwrap.wrap(text.replace("`", ""), 79, initial_indent=indent, subsequent_indent=indent, break_on_hyphens=False)


def columns(rows: Iterable[Tuple[str, str]]) -> List[str]:
    """Names, and texts beside them."""
    rows = list(rows)
    width = max((len(name) for name, _ in rows), default=0) + 4
    lines = []
    for name, text in rows:
        first, *others = wrapped(text, " " * width)
        lines += [f"  {name}".ljust(width) + first.lstrip(), *others]
    return lines


def command_help(command: Command) -> List[str]:
    words, prints = command.example
    lines = [*wrapped(f"memplan {command.name}: {command.purpose}"), "", *wrapped(f"usage: memplan {command.name} {command.usage}")]
    lines += [line for name, says in inputs_of(command) for line in wrapped(f"{name} is {says}")]
    lines += ["", *columns((f"--{option.name} {option.value}", option.says) for option in command.options)]
    lines += ["", *wrapped(f"Prints {command.prints}. {own_statuses(command)}".strip())]
    return [*lines, "", f"$ memplan {words}", *prints.split("\n")]


def summary_help() -> List[str]:
    lines = [*wrapped(ABOUT), "", "usage: memplan COMMAND OPTIONS", ""]
    lines += columns((command.name, command.purpose) for command in COMMANDS)
    lines += ["", *wrapped(f"'memplan help plan' has the options of plan, and so on. {WORDS}"), "", "Statuses:"]
    lines += columns((str(number), says) for number, says in STATUSES.items())
    return [*lines, "", *wrapped("docs/COMMANDS.md has all of this, docs/FORMATS.md the files, docs/REPORTS.md the refusals.")]


def bash_table(name: str, rows: Dict[str, str]) -> List[str]:
    return [f"declare -A {name}=(", *(f"    [{key}]={shlex.quote(value)}" for key, value in rows.items()), ")"]


def help_script() -> str:
    numbers = {option.name: f"{option.least} {option.most}" for option in ALL.values() if option.value != FILE and not option.words()}
    pairs = {command.name: " ".join(f"{one}:{other}" for one, other in command.only_with) for command in COMMANDS}
    lines = [f"# Sourced by tools/terminal.sh, and by nothing else. {MADE}"]
    lines.append(f"commands=\"{' '.join(command.name for command in COMMANDS)}\"")
    lines += bash_table("usage_of", {command.name: command.usage for command in COMMANDS})
    lines += bash_table("options_of", {command.name: " ".join(option.name for option in command.options) for command in COMMANDS})
    lines += bash_table("one_of", {command.name: " ".join(command.one_of) for command in COMMANDS})
    lines += bash_table("only_with", pairs)
    lines.append(f"at_most_one=\"{' '.join(AT_MOST_ONE)}\"")
    own = {f"{command}.{name}": value for (command, name), value in OTHERWISE.items()}
    lines += bash_table("value_of", {**{option.name: option.value for option in ALL.values()}, **own})
    lines += bash_table("range_of", numbers)
    lines += ["", "print_help() { # COMMAND, or nothing", "    case $1 in"]
    for name, text in [*((command.name, command_help(command)) for command in COMMANDS), ("*", summary_help())]:
        lines += [f"        {name})", "            cat <<'END'", *text, "END", "            ;;"]
    return "\n".join([*lines, "    esac", "}", ""])


FILES: Dict[str, Callable[[], str]] = {
    "docs/COMMANDS.md": page,
    "docs/memplan.1": manual,
    "tools/completion/memplan.bash": bash_completion,
    "tools/completion/_memplan": zsh_completion,
    "tools/help.sh": help_script,
}


def main() -> int:
    if sys.argv[1:] not in ([], ["--check"]):
        print(__doc__)
        return 2
    passed = failed = 0
    for name, make in FILES.items():
        file, text = ROOT / name, make()
        if not sys.argv[1:]:
            file.parent.mkdir(exist_ok=True)
            file.write_text(text, encoding="utf-8")
        elif file.is_file() and file.read_text(encoding="utf-8") == text:
            passed += 1
        else:
            failed += 1
            print(f"FAILED: {name} is not what tools/make_help.py makes of tools/commands.py: run it")
    if sys.argv[1:]:
        print(f"{passed} passed, {failed} failed")
    return 1 if failed else 0


if __name__ == "__main__":
    sys.exit(main())
