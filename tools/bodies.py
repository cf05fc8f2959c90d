"""bodies.py: what tools/edits.py, tools/answers.py and bin/edits share: a crate's functions, the edits that change them to wrong
bodies, and a copy of the crates on which edits are tried.

The gate tries the edits of crates/NAME/must-fail/, bin/edits those of edits/NAME/.
"""
import os
import pathlib
import re
import shutil
import subprocess
import sys

TOP = pathlib.Path(__file__).resolve().parent.parent
CRATES = TOP / "crates"
EDITS = TOP / "edits"

FUNCTION = re.compile(r'^[ ]*(pub(?:\(\w+\))? )?(?:const )?(?:extern "C" )?fn (\w+)', re.M)
OWNER = re.compile(r"^(?:pub(?:\(crate\))? )?(impl|trait)\b(.*)$", re.M)
TOKEN = re.compile(r'"(?:\\.|[^"\\])*"|\'(?:\\.|[^\'\\])\'|//[^\n]*|\b(?:ensures|requires)\b|[][(){};]')
# A function that does nothing when it runs: its clauses are a law, and no body can be wrong.
LAW = re.compile(r"(?:\)|Log<A>)\s+(?:ensures [^\n]*\n(?: +[^ {][^\n]*\n)*?\s*)+\{(?:(?:\s*let _\w* = [^;]*;)*|\s*\w+ \{ of: PhantomData \})\s*\}\Z")
PAIR = re.compile(r"^old: (.*)\nnew: ?(.*)$", re.M)


class Function:
    """A function: where it begins and ends in its file, whose it is, and whether it is a promise."""

    def __init__(self, text, found, owner):
        self.start = found.start()
        self.owner, self.in_trait = owner
        self.plain = found.group(2)
        self.name = f"{self.owner}::{self.plain}" if self.owner else self.plain
        self.end, self.has_ensures = self.read(text, found.end())
        self.is_law = LAW.search(text, self.start, self.end) is not None
        self.is_promise = self.has_ensures and not self.is_law and (found.group(1) == "pub " or self.in_trait)

    @staticmethod
    def read(text, at):
        """Where the function ends, and whether its contract has an `ensures`."""
        depth, inside, in_clause, in_body, has_ensures = 0, 0, False, False, False
        for token in TOKEN.finditer(text, at):
            word = token.group()
            inside += (word in ("(", "[")) - (word in (")", "]"))
            if word in ("ensures", "requires") and not in_body and depth == 0:
                in_clause = True
                has_ensures |= word == "ensures"
            elif word == "{":
                in_body |= depth == 0 and not in_clause
                depth += 1
            elif word == "}":
                depth -= 1
                if depth == 0 and in_body:
                    return token.end(), has_ensures
                in_clause &= depth > 0
            elif word == ";" and depth == inside == 0 and not in_body:
                return token.end(), has_ensures
        return len(text), has_ensures


def type_named(head):
    """The last name of a type's path, without its parameters."""
    return re.match(r"&?(?:mut )?(\w+(?:::\w+)*)", head.strip()).group(1).split("::")[-1]


def without_parameters(head):
    """What follows `impl`, without the parameters that it begins with."""
    depth = 0
    for at, letter in enumerate(head):
        depth += (letter == "<") - (letter == ">" and head[at - 1] not in "-=")
        if depth == 0:
            return head[at + 1 :] if letter == ">" else head
    return head


def owner_at(text, found):
    """Whose function this is, a type's or a trait's, and whether it is in the trait itself."""
    if found.group()[0] != " ":
        return "", False
    kind, head = [one.groups() for one in OWNER.finditer(text, 0, found.start())][-1]
    head = head.partition("{")[0] if kind == "trait" else without_parameters(head)
    return type_named(head.partition(" for ")[0]), kind == "trait"


def functions_of(text):
    return [Function(text, found, owner_at(text, found)) for found in FUNCTION.finditer(text)]


class Crate:
    """A crate's functions by file."""

    def __init__(self, folder):
        self.name = folder.name
        self.folder = folder
        self.texts = {str(path.relative_to(folder)): path.read_text() for path in sorted((folder / "src").rglob("*.rt"))}
        self.functions = {path: functions_of(text) for path, text in self.texts.items()}

    def promises(self):
        """The promises' names. Of two functions of one name, each is named with its module."""
        all_of = [(path, one) for path, found in self.functions.items() for one in found if one.is_promise]
        names = [one.name for _, one in all_of]
        for path, one in all_of:
            if names.count(one.name) > 1:
                one.name = f"{pathlib.Path(path).stem}::{one.name}"
        return [f"{self.name}::{one.name}" for _, one in all_of]

    def tests(self):
        return {name for text in self.texts.values() for name in re.findall(r"#\[test\]\s+fn (\w+)", text)}

    def edits(self):
        """Its edits, those of the gate first."""
        places = [self.folder / "must-fail", EDITS / self.name]
        return [Edit(path, self) for place in places for path in sorted(place.glob("*.edit"))]


class Edit:
    """A must-fail edit: what it changes, whether the gate tries it, and whether it can be applied."""

    def __init__(self, path, crate):
        self.path = path
        self.name = f"{crate.name}/{path.stem}"
        self.in_gate = path.parent.name == "must-fail"
        text = path.read_text()
        self.file = "".join(re.findall(r"^file: (\S+)$", text, re.M)[:1])
        self.olds = [old for old, _ in PAIR.findall(text)]
        file = crate.folder / self.file
        self.body = file.read_text() if file.is_file() else ""
        self.touched = [one for old in self.olds for one in self.around(crate, self.body.find(old))]

    def around(self, crate, at):
        return [one for one in crate.functions.get(self.file, []) if one.start <= at < one.end]

    def fault(self):
        """Why it can't be applied, if it can't."""
        if not self.olds:
            return "it has no 'old:' and 'new:' pair"
        counts = [self.body.count(old) for old in self.olds]
        odd = [count for count in counts if count != 1]
        return f"an 'old:' text is in {self.file} {odd[0]} times, and not once" if odd else None


def copy_kept(crate, to):
    """Gives a copied crate what checks kept of it: the same files under a second name, or nothing where that can't be."""
    for part in ("rlib", "incremental"):
        try:
            if (CRATES / crate / "out" / part).is_dir():
                shutil.copytree(CRATES / crate / "out" / part, to / crate / "out" / part, copy_function=os.link)
        except (OSError, shutil.Error):
            shutil.rmtree(to / crate / "out" / part, ignore_errors=True)


def copy_crates(room, edits):
    """Copies all crates into a room, with what checks kept of them and with these edits alone, each a crate and a path."""
    for file in ("crates.txt", "HANDLES"):
        shutil.copy(TOP / file, room)
    shutil.copytree(CRATES, room / "crates", ignore=shutil.ignore_patterns("out", "must-fail"))
    for crate in sorted(path.name for path in CRATES.iterdir()):
        copy_kept(crate, room / "crates")
    for crate, path in edits:
        (room / "crates" / crate / "must-fail").mkdir(exist_ok=True)
        shutil.copy(path, room / "crates" / crate / "must-fail")


def must_fail(room, crate):
    """Tries a crate's edits in a room. Each line of what comes of it is printed, and the status is answered."""
    command = [sys.executable, TOP / "bin" / "build.py", "--rt", "must-fail", crate]
    return subprocess.run(command, cwd=room, check=False).returncode
