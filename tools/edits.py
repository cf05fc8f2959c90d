#!/usr/bin/env python3
"""edits.py: what shows that each promise is more than a text.

A promise is a `pub fn` with an `ensures`, or a method with one in a trait, of a library below crates/. It is shown by an edit
that the prover refuses and whose `old:` text lies in that function (for a trait's method, in a method of an implementation):
one of crates/NAME/must-fail/, or one of edits/NAME/, which stay out of the gate. What is shown elsewhere, or in the gate by
something else, has a line in tools/edits.txt, `PROMISE: edit CRATE/NAME` or `PROMISE: test CRATE::NAME`. docs/EDITS.md has the
wrong bodies in words, each with its edit or test. Where the gate doesn't try the edit, what the gate tries comes after it.

`edits.py` prints a line for each promise and each wrong body; `edits.py --check` prints only what is missing. A promise or a
wrong body without either fails, and so does an edit that can't be applied, a line that names an edit, a test or a promise that
isn't there, and one that adds nothing to the edits of its promise. The last line is 'N passed, N failed'.
"""
import pathlib
import re
import sys

from bodies import CRATES, EDITS, TOP, Crate

LINES = TOP / "tools" / "edits.txt"
PAGE = TOP / "docs" / "EDITS.md"

LINE = r"([\w:]+): ((?:edit|test) \S+)"
BULLET = r"- (.+): `((?:edit|test) \S+)`(?:, (`(?:edit|test) \S+`|by `bin/edits` alone))?"
SHOWN = re.compile(r"(?:edit (\w+)/([\w.-]+)|test (\w+)::(\w+)|test (tests/\w+\.py)::(\w+))")


class House:
    """The crates, their promises, edits and tests."""

    def __init__(self):
        folders = [path.parent for path in sorted(CRATES.glob("*/src"))]
        self.crates = {folder.name: Crate(folder) for folder in folders}
        self.tests = {f"{crate.name}::{test}" for crate in self.crates.values() for test in crate.tests()}
        for path in sorted((TOP / "tests").glob("*.py")):
            self.tests |= {f"tests/{path.name}::{name}" for name in re.findall(r"^def (test_\w+)", path.read_text(), re.M)}
        self.promises = [name for crate in self.crates.values() if "src/lib.rt" in crate.texts for name in crate.promises()]
        methods = [(crate.name, one) for crate in self.crates.values() for found in crate.functions.values() for one in found if one.in_trait]
        self.of_traits = [f"{crate}::{one.name}" for crate, one in methods if one.is_promise]
        self.edits = [edit for crate in self.crates.values() for edit in crate.edits()]
        self.in_gate = {edit.name: edit.in_gate for edit in self.edits}
        self.shown = self.shown_directly()

    def shown_directly(self):
        """From each promise to the edits that lie in its function, those of the gate first."""
        found = {name: [] for name in self.promises}
        for edit in self.edits:
            crate = edit.name.partition("/")[0]
            for one in edit.touched:
                for name in (f"{crate}::{one.name}", *self.of_trait(one)):
                    if name in found and edit not in found[name]:
                        found[name].append(edit)
        return found

    def of_trait(self, one):
        """The promises of a trait that a method of an implementation keeps."""
        return [name for name in self.of_traits if name.partition("::")[2] == one.name]


def is_there(house, said):
    """Whether the edit or test that a line names is there."""
    found = SHOWN.fullmatch(said)
    if not found:
        return False
    crate, edit, of, test, script, case = found.groups()
    if crate:
        return f"{crate}/{edit}" in house.in_gate
    return (f"{of}::{test}" if of else f"{script}::{case}") in house.tests


def is_in_gate(house, said):
    """Whether the gate tries the edit or runs the test that a line names."""
    return is_there(house, said) and house.in_gate.get(said.partition(" ")[2], True)


def lines_of(path, form):
    """The lines of a file that say what shows something: what is shown, and by what."""
    return [found.groups() for line in path.read_text().splitlines() if (found := re.fullmatch(form, line))]


def judge_promises(house, elsewhere):
    """For each promise a line of what shows it, and what is wrong with it, if anything."""
    for name in house.promises:
        shown = [f"edit {one.name}" for one in house.shown[name]] + elsewhere.get(name, [])
        yield f"{name}: {', '.join(shown) or 'nothing'}", None if shown else "no edit and no test shows it"


def judge_elsewhere(house, elsewhere):
    """The same for each line of tools/edits.txt. One of a promise with edits of its own says what the gate tries for them."""
    for name, said in elsewhere.items():
        fault = None
        own = house.shown.get(name)
        if own is None:
            fault = "there is no such promise"
        elif any(edit.in_gate for edit in own):
            fault = f"{own[0].name} lies in it, so the line says nothing"
        elif len(said) > 1 or not is_there(house, said[0]):
            fault = "one edit or test that is there, once"
        elif own and not is_in_gate(house, said[0]):
            fault = f"{own[0].name} lies in it, and the gate doesn't try what the line names either"
        yield f"tools/edits.txt: {name}: {', '.join(said)}", fault


def judge_forms():
    """The lines of both files that have another form."""
    for path, mark, form in ((LINES, "", LINE), (PAGE, "- ", BULLET)):
        for line in path.read_text().splitlines():
            if line.startswith(mark) and line and not line.startswith("#") and not re.fullmatch(form, line):
                yield f"{path.relative_to(TOP)}: {line}", "it has another form"


def judge_bodies(house):
    """The wrong bodies in words. Where the gate doesn't try an edit, the page says what the gate tries, or that it tries nothing."""
    for words, said, more in lines_of(PAGE, BULLET):
        other = (more or "").strip("`")
        fault = None
        if not is_there(house, said):
            fault = "there is no such edit or test"
        elif other[:4] in ("edit", "test") and not is_in_gate(house, other):
            fault = "the gate has no such edit or test as the second"
        elif is_in_gate(house, said) == bool(other):
            fault = "the gate tries it, so the other says nothing" if other else "the gate doesn't try it, and the page doesn't say so"
        yield f"{words}: {said}{other and ', '}{other}", fault


def judge_edits(house):
    """Each edit, and each folder of edits/."""
    for edit in house.edits:
        yield f"{edit.path.relative_to(TOP)}", edit.fault()
    for folder in EDITS.iterdir():
        if folder.is_dir() and folder.name not in house.crates:
            yield f"edits/{folder.name}", "there is no such crate"


def judge(house):
    """All of these: the lines of promises and wrong bodies, which are printed, and the others."""
    elsewhere = {}
    for name, said in lines_of(LINES, LINE):
        elsewhere.setdefault(name, []).append(said)
    printed = [*judge_promises(house, elsewhere), *judge_bodies(house)]
    return printed, [*judge_elsewhere(house, elsewhere), *judge_forms(), *judge_edits(house)]


def main(words):
    printed, checked = judge(House())
    if "--check" not in words:
        print("\n".join(line for line, fault in printed if fault is None))
    failed = [f"FAILED {line}: {fault}" for line, fault in [*printed, *checked] if fault]
    print("".join(f"{line}\n" for line in failed), end="")
    print(f"{len(printed) + len(checked) - len(failed)} passed, {len(failed)} failed")
    return 1 if failed else 0


if __name__ == "__main__":
    sys.exit(main(sys.argv[1:]))
