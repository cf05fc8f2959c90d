#!/usr/bin/env python3
"""Writes the man page and the completions of bash, zsh and fish from the program's help texts, which are in tests/texts
and compared with the program's own by the tests. What the man page says of scenarios and of exit statuses is taken from the
tables of docs/FORMATS.md. `manual.py --check` says by its status whether share/ is what this script writes.
"""
import pathlib
import re
import sys
import textwrap

TOP = pathlib.Path(__file__).resolve().parent.parent
TEXTS = TOP / "tests" / "texts"
SHARE = TOP / "share"
FORMATS = TOP / "docs" / "FORMATS.md"
# The options that take a file.
FILE_OPTIONS = ("--scenario",)
# The words that an option takes.
CHOICES = {"--size": ["7", "13", "251", "1021", "8191", "65537"], "--hash": ["fnv", "sha256", "sum"], "--cut": ["pad"]}
# When the commands were last changed.
DATE = "2026-11-29"
# Arguments that are files.
FILES = ("SCENARIO", "INPUT", "OUTPUT")


class Help:
    """A help text in its parts."""

    def __init__(self, name):
        lines = (TEXTS / f"{name}.txt").read_text().splitlines()
        self.name = name
        self.about = lines[0]
        self.usage = next(line[len("Usage: "):] for line in lines if line.startswith("Usage: "))
        self.parts = {"Commands:": [], "Arguments:": [], "Options:": []}
        self.after = []
        part = None
        for line in lines[lines.index(f"Usage: {self.usage}") + 1:]:
            if line in self.parts:
                part = self.parts[line]
            elif part is not None and line.startswith("  "):
                word, text = re.split(r"\s{2,}", line.strip(), maxsplit=1)
                part.append((word, text))
            elif line:
                part = None
                self.after.append(line)

    def commands(self):
        """The names of the commands, but for help."""
        return [word for word, _ in self.parts["Commands:"] if word != "help"]

    def options(self):
        """Each option's long word, what it takes (or None), and its text."""
        found = []
        for words, text in self.parts["Options:"]:
            long = re.search(r"--[a-z-]+", words).group()
            takes = re.search(r"<([A-Z]+)>", words)
            found.append((long, takes.group(1) if takes else None, text))
        return found

    def takes_files(self):
        """Whether an argument is a file."""
        return any(word.strip("<>.") in FILES for word, _ in self.parts["Arguments:"])


def roff(text):
    """A text for the man page, in short lines."""
    text = text.replace("\\", "\\e").replace("-", "\\-").replace("'", "\\(aq")
    return "\n".join(textwrap.wrap(text, 78, break_long_words=False, break_on_hyphens=False))


def after_help(line):
    """A line below a command's options: a sentence, a word with its text, or the text of the word before."""
    if not line.startswith("  "):
        return [".PP", roff(line)]
    word, _, text = line.strip().partition("  ")
    if line.startswith("     "):
        return [roff(line.strip())]
    return [".TP", f".B {roff(word)}"] + ([roff(text.strip())] if text else [])


def table(head):
    """The rows of the first table below a heading of docs/FORMATS.md, as plain words."""
    text = FORMATS.read_text()
    lines = text[text.index(f"### {head}\n"):].splitlines()
    first = next(place for place, line in enumerate(lines) if line.startswith("|---"))
    rows = []
    for line in lines[first + 1:]:
        if not line.startswith("|"):
            return rows
        rows.append([cell.strip().replace("`", "") for cell in line.strip("|").split("|")])
    return rows


def section(head, of, before):
    """A section of the man page that is a table of docs/FORMATS.md."""
    lines = [f".SH {head}", roff(before)]
    for word, text in table(of):
        lines += [".TP", f".B {roff(word)}", roff(text)]
    return lines


def man_page(whole, commands):
    """The man page, in the macros of man(7)."""
    page = [f'.TH MAGLEV 1 "{DATE}" "maglev" "User Commands"', ".SH NAME", f"maglev \\- {roff(whole.about)}", ".SH SYNOPSIS"]
    for one in commands:
        page += [".B maglev", roff(one.usage[len("maglev "):]), ".br"]
    page.pop()
    page += [".SH DESCRIPTION", roff("Formats, texts and the order of faults are in docs/FORMATS.md, and docs/USING.md says how to use captures.")]
    page += [".PP", roff("Where standard error is a terminal, more is said of a fault, and of what may not be meant, as with -v. maglev -v COMMAND is maglev COMMAND -v.")]
    files = commands[0].after[-1]
    page += [".PP", roff(files), ".SH COMMANDS"]
    for one in commands:
        page += [f".SS {one.name}", roff(one.about) + "."]
        for word, text in one.parts["Arguments:"] + one.parts["Options:"]:
            page += [".TP", f".B {roff(word)}", roff(text)]
        for line in one.after:
            page += after_help(line) if line != files else []
    page += section("SCENARIO", "Keys", "A scenario is a TOML document with these keys. Each is required but ring, check and idle, those of format 3 alone, and what a version or a service takes over from its base. Sections that are named are those of docs/FORMATS.md.")
    page += section("STEPS", "Steps", "Each step is a text. N is a node and W a worker, counted from 0; V is the number of a version.")
    page += [".SH EXIT STATUS", ".TP", "0", "Done.", ".TP", "1", "A fault, which a line on standard error names."]
    page += [".TP", "2", "A bad command line."]
    page += [".TP", "3", "Done, and a greater share of the connections changed their server than \\-\\-fail\\-above allows."]
    page += [".TP", "141", "Whoever read standard output went away."]
    page += section("FAULTS", "Exit status", "Memory comes where memory was refused, Write where standard output can't be written. The others by command, the first that holds:")
    page += section("FAULTS OF A SCENARIO", "Faults", "The first that holds in this order:")
    return "\n".join(page) + "\n"


# What stands for -v before a command, which is as behind it.
VERBOSE = ("-v", "--verbose")
VERBOSE_TEXT = "say more of a fault, and of what may not be meant"


def bash_words(whole, commands):
    """Completions for bash. It takes `--size=7` for three words, so that the sign is left out of what is before."""
    names = " ".join(whole.commands())
    lines = ["# Completions of maglev for bash.", "_maglev() {", '    local word=${COMP_WORDS[COMP_CWORD]} before=${COMP_WORDS[COMP_CWORD-1]} at=1']
    lines.append('    if [ "$word" = = ]; then word=; elif [ "$before" = = ]; then before=${COMP_WORDS[COMP_CWORD-2]}; fi')
    lines.append('    if [ "$COMP_CWORD" -eq 1 ]; then')
    lines.append(f'        mapfile -t COMPREPLY < <(compgen -W "{names} help {" ".join([*VERBOSE, *(long for long, _, _ in whole.options())])}" -- "$word")')
    lines += ["        return", "    fi", f'    case ${{COMP_WORDS[1]}} in {" | ".join(VERBOSE)}) at=2 ;; esac']
    lines.append('    if [ "$COMP_CWORD" -eq "$at" ]; then')
    lines.append(f'        mapfile -t COMPREPLY < <(compgen -W "{names}" -- "$word")')
    lines += ["        return", "    fi", "    case $before in"]
    lines.append(f'        {"|".join(FILE_OPTIONS)}) compopt -o filenames 2>/dev/null; mapfile -t COMPREPLY < <(compgen -f -- "$word"); return ;;')
    for option, words in CHOICES.items():
        lines.append(f'        {option}) mapfile -t COMPREPLY < <(compgen -W "{" ".join(words)}" -- "$word"); return ;;')
    lines += ["    esac", "    case ${COMP_WORDS[at]} in"]
    for one in commands:
        options = " ".join(long for long, _, _ in one.options())
        files, kind = (" -f", " compopt -o filenames 2>/dev/null;") if one.takes_files() else ("", "")
        lines.append(f'        {one.name}){kind} mapfile -t COMPREPLY < <(compgen{files} -W "{options}" -- "$word") ;;')
    lines.append(f'        help) mapfile -t COMPREPLY < <(compgen -W "{names}" -- "$word") ;;')
    lines += ["    esac", "}", "complete -F _maglev maglev"]
    return "\n".join(lines) + "\n"


def quoted(text):
    """A text between single quotes, for zsh and fish."""
    return "'" + text.replace("'", "'\\''") + "'"


def zsh_words(whole, commands):
    """Completions for zsh."""
    lines = ["#compdef maglev", "# Completions of maglev for zsh.", "_maglev() {", "    local -a commands options", "    commands=("]
    lines += ["        " + quoted(f"{word}:{text}") for word, text in whole.parts["Commands:"]]
    options = [*(f"{word}:{VERBOSE_TEXT}" for word in VERBOSE), *(f"{long}:{text}" for long, _, text in whole.options())]
    lines += ["    )", f"    options=({' '.join(map(quoted, options))})"]
    lines.append(f'    if (( CURRENT > 2 )) && [[ $words[2] = ({"|".join(VERBOSE)}) ]]; then')
    lines += ["        words[2]=()", "        (( CURRENT-- ))", "        options=()", "    fi"]
    lines += ["    if (( CURRENT == 2 )); then", "        _describe command commands", "        _describe -o option options", "        return", "    fi", "    case $words[2] in"]
    for one in commands:
        specs = []
        for long, takes, text in one.options():
            what = ":" + takes + ":(" + " ".join(CHOICES[long]) + ")" if long in CHOICES else f":{takes}:" if takes else ""
            what += "_files" if long in FILE_OPTIONS else ""
            specs.append(quoted(f"{long}[{text.replace('[', '(').replace(']', ')')}]{what}"))
        specs.append(quoted("*:file:_files") if one.takes_files() else quoted("*:word:"))
        lines.append(f"        {one.name}) shift words; (( CURRENT-- )); _arguments {' '.join(specs)} ;;")
    lines += ["    esac", "}", '_maglev "$@"']
    return "\n".join(lines) + "\n"


def fish_words(whole, commands):
    """Completions for fish."""
    lines = ["# Completions of maglev for fish.", "complete -c maglev -f"]
    for word, text in whole.parts["Commands:"]:
        lines.append(f"complete -c maglev -n __fish_use_subcommand -a {word} -d {quoted(text)}")
    lines.append(f"complete -c maglev -n __fish_use_subcommand -s v -l verbose -d {quoted(VERBOSE_TEXT)}")
    lines += [f"complete -c maglev -n __fish_use_subcommand -l {long[2:]} -d {quoted(text)}" for long, _, text in whole.options()]
    for one in commands:
        seen = f"-n '__fish_seen_subcommand_from {one.name}'"
        if one.takes_files():
            lines.append(f"complete -c maglev {seen} -F")
        for long, takes, text in one.options():
            words = f" -x -a {quoted(' '.join(CHOICES[long]))}" if long in CHOICES else " -r -F" if long in FILE_OPTIONS else " -x" if takes else ""
            lines.append(f"complete -c maglev {seen} -l {long[2:]}{words} -d {quoted(text)}")
    return "\n".join(lines) + "\n"


def written():
    """Each file of share/, by its name."""
    whole = Help("maglev")
    commands = [Help(name) for name in whole.commands()]
    return {
        "man/man1/maglev.1": man_page(whole, commands),
        "bash-completion/completions/maglev": bash_words(whole, commands),
        "zsh/site-functions/_maglev": zsh_words(whole, commands),
        "fish/vendor_completions.d/maglev.fish": fish_words(whole, commands),
    }


def main():
    files = written()
    if sys.argv[1:] == ["--check"]:
        there = {name: (SHARE / name).read_text() for name in files if (SHARE / name).is_file()}
        sys.exit(0 if there == files else 1)
    for name, text in files.items():
        (SHARE / name).parent.mkdir(parents=True, exist_ok=True)
        (SHARE / name).write_text(text)


if __name__ == "__main__":
    main()
