#!/usr/bin/env python3
"""Lists the definitions that the promises rest on, in an order in which they can be read aloud.

A promise is the contract of some functions. From the definitions that their clauses name, all that they use is collected from
`crates/*/specs/*.antt`, each definition after those that it uses. `definitions.py` prints the page docs/DEFINITIONS.md.
`definitions.py --check` ends with status 1 where the page in docs/ isn't that text, or where README.md or docs/PROVED.md has
other counts. A word of Rattle's own library, and a type that the Rust code declares, is named where it is used and not counted.
"""
import pathlib
import re
import sys

TOP = pathlib.Path(__file__).resolve().parent.parent
PAGE = TOP / "docs" / "DEFINITIONS.md"

# A promise, what it says, and the functions whose clauses carry it: the crate, the file and the function.
PROMISES = [
    (
        "The headline over every list of events",
        "`replay_maglev` and `replay` of `cluster_core`: each outcome is the verdict of its event after all before it; two sends "
        "of one flow to different backends chose under versions whose tables name them at the flow's slot; a forwarder keeps "
        "a flow's backend while its entry stands and the backend is up or draining; every slot names an up backend, never one "
        "that drains, and backends' slot counts are in proportion to their weights, of equal weights differ by at most one.",
        [("cluster_core", "headline", "replay_maglev"), ("cluster_core", "replaying", "replay")],
    ),
    (
        "A cluster event by event",
        "`Run::make`, `step` and `pass` of `cluster_core`: the outcomes are those of the headline, for every record that the run "
        "represents.",
        [("cluster_core", "running", "make"), ("cluster_core", "running", "step"), ("cluster_core", "running", "pass")],
    ),
    (
        "`table`, `pick` and `compare`: what is written of tables",
        "These functions of `table_commands`.",
        [
            ("table_commands", "table_command", "table"),
            ("table_commands", "pick_command", "pick"),
            ("table_commands", "compare_command", "compare"),
        ],
    ),
    (
        "`plan`: what a rollout moves",
        "`plan` of `rollout_plan`, and the laws of its counts; `order` of `rollout_order`.",
        [("rollout_plan", "plan_command", "plan"), ("rollout_plan", "laws", "plans_add_up"), ("rollout_order", "order_command", "order")],
    ),
    (
        "`table`, `pick` and `compare` over a scenario",
        "These functions of `scenario_tables`.",
        [
            ("scenario_tables", "listing", "table_in"),
            ("scenario_tables", "picking", "pick_in"),
            ("scenario_tables", "comparing", "compare_in"),
        ],
    ),
    (
        "libmaglev: the table for programs in other languages",
        "These functions of `maglev_ffi`.",
        [("maglev_ffi", "lib", f"maglev_{name}") for name in ("table", "slot", "slots", "differing")],
    ),
    (
        "`simulate` and `explain`: a scenario's events over a capture's records, and what is written",
        "`simulate` and `explain_run` of `scenario_commands`.",
        [("scenario_commands", "playing", "simulate"), ("scenario_commands", "playing", "explain_run")],
    ),
    (
        "Which connections changed their server, where, when and why",
        "`push_places` and `push_summary` of `connection_changes`, which `--where` and `--summary` print, and the laws of its causes.",
        [
            ("connection_changes", "lines", "push_places"),
            ("connection_changes", "summary", "push_summary"),
            ("connection_changes", "laws", "causes_add_up"),
            ("connection_changes", "laws", "moves_of_one_worker_are_evictions"),
        ],
    ),
    (
        "`simulate --syn`: flows that begin again are other connections",
        "`ordinals_in` and `simulate_turned` of `scenario_commands`, and the law of `connection_starts`.",
        [
            ("scenario_commands", "turning", "ordinals_in"),
            ("scenario_commands", "turning", "simulate_turned"),
            ("connection_starts", "laws", "nothing_ends_nothing_begins"),
        ],
    ),
    (
        "What each backend got and each node sent, under each version",
        "`push_shares` of `traffic_shares`, which `--per-backend` and `--per-node` print, and the law of its packets.",
        [("traffic_shares", "lines", "push_shares"), ("traffic_shares", "laws", "packets_add_up")],
    ),
    (
        "A node and a cluster on threads",
        "`run_node` and `run_cluster` of `node_threads`.",
        [("node_threads", "node", "run_node"), ("node_threads", "cluster", "run_cluster")],
    ),
    (
        "`run`: a scenario's cluster on threads over a capture, and what is written",
        "`run` of `maglev_cli`.",
        [("maglev_cli", "running", "run")],
    ),
    (
        "`run --syn`: the same of a cluster on threads",
        "`thread_ordinals_in` of `scenario_commands`, and `run_turned` of `maglev_cli`.",
        [("scenario_commands", "turning", "thread_ordinals_in"), ("maglev_cli", "turned", "run_turned")],
    ),
    (
        "`simulate --node N`: one node's part of the run",
        "`simulate_part` of `scenario_commands`, and the laws of `node_part`.",
        [
            ("scenario_commands", "parting", "simulate_part"),
            ("node_part", "laws", "nodes_are_judged_alone"),
            ("node_part", "laws", "parts_are_of_the_whole"),
            ("node_part", "laws", "parts_send_their_own"),
        ],
    ),
    (
        "`--cut pad`: the capture that is played in place of one whose records were cut",
        "`Padded::new` and the law `padded_is_whole` of `padded_capture`.",
        [("padded_capture", "padded", "new"), ("padded_capture", "laws", "padded_is_whole")],
    ),
    (
        "`scenario`: the scenario to start from that a capture gives",
        "`sketch` and the law `ranked_are_fair` of `scenario_sketch`.",
        [("scenario_sketch", "sketch_command", "sketch"), ("scenario_sketch", "laws", "ranked_are_fair")],
    ),
]

PREFACE = [
    "What a reader has to believe: the definitions that each promise rests on, each after those that it uses, with the count of",
    "its lines. They are those that the clauses of the promise's functions name, and all that these use; what an earlier part",
    "lists isn't repeated. `tools/definitions.py` collects them from the crates, and a test compares this page with what it",
    "prints. Words of Rattle's library (lists, numbers, options) and types of the Rust code aren't listed. What a hash, a scheme",
    "and a connection table is to its users are the laws of `FlowHash`, `Scheme` and `ConnTable`, in the sources of `hash_laws`,",
    "`selection` and `connection_table`.",
]

HEAD = re.compile(r"^(?:abbrev pub|unfoldable pub|pub record|pub data|abbrev|pub|record|data)\s+([^\s:({]+)")
WORD = re.compile(r"(?<![\w.'-])[A-Za-z_][\w'-]*|◌\S+◌")
BOUND = re.compile(r"[({]((?:[a-z_][\w'-]* )+): ")


class Definition:
    """A definition: where it is, its lines, and the words in them that it doesn't bind."""

    def __init__(self, crate, module, name, lines):
        self.key = (crate, module, name)
        self.lines = lines
        code = [line.split("--")[0] for line in lines]
        words = set(WORD.findall("\n".join(code)))
        self.words = words - bound_in(name, code) - {name}


def bound_in(name, code):
    """The words that a definition's patterns and arguments bind."""
    found = set()
    for line in code:
        if line.startswith(f"{name} ") and not line.startswith(f"{name} :"):
            found |= {word for word in WORD.findall(line.split(" =")[0]) if word[0].islower()}
        for words in BOUND.findall(line):
            found |= set(words.split())
    return found


def imports_of(lines):
    """From a word to the definition that a file's `use` lines bring in."""
    found = {}
    for line in lines:
        use = re.match(r"use Rattle\.(\w+)\.specs\.([\w.]+)\.\{(.*)\}", line)
        if not use or use.group(2).startswith("declared"):
            continue
        for item in use.group(3).split(","):
            names = item.strip().split(" as ")
            found[names[-1]] = (use.group(1), use.group(2), names[0])
    return found


class Repository:
    """All definitions of the repository, in the order of their files, and what each file brings in."""

    def __init__(self):
        self.definitions, self.imports = {}, {}
        for crate in re.findall(r"^(\w+)(?: staticlib)?:", (TOP / "crates.txt").read_text(), re.MULTILINE):
            for path in sorted((TOP / "crates" / crate / "specs").glob("*.antt")):
                if path.stem != "Lib":
                    self.read(path)
        self.places = {key: place for place, key in enumerate(self.definitions)}

    def read(self, path):
        """The definitions of a file: each begins at its head and ends before the next one, or a comment before that."""
        crate, module = path.parts[-3], path.stem
        lines = path.read_text().splitlines()
        self.imports[crate, module] = imports_of(lines)
        name, kept = None, []
        for line in [*lines, "use end"]:
            head = HEAD.match(line)
            if line.startswith(("use ", "--")) or (head and head.group(1) != name):
                if name:
                    self.definitions[crate, module, name] = Definition(crate, module, name, kept)
                name, kept = None, []
            if head and name is None:
                name, kept = head.group(1), [line]
            elif name and line.strip():
                kept.append(line)
            elif (crate, module, line.split(" ")[0]) in self.definitions:
                sys.exit(f"definitions.py: a comment parts a definition: {path}: {line}")

    def used_by(self, key):
        """The definitions that one uses. A word is one of its file only from its place on."""
        found = set()
        for word in self.definitions[key].words:
            used = self.imports[key[:2]].get(word, (*key[:2], word))
            if used in self.definitions and (used[:2] != key[:2] or self.places[used] < self.places[key]):
                found.add(used)
        return found

    def reached_from(self, roots):
        """The roots, and all definitions that they use."""
        found, left = set(), list(roots)
        while left:
            key = left.pop()
            if key not in found:
                found.add(key)
                left.extend(self.used_by(key))
        return found

    def in_order(self, keys):
        """These definitions file by file, each after those of them that it uses."""
        files = {key[:2]: set() for key in sorted(keys, key=self.places.get)}
        for key in keys:
            files[key[:2]] |= {used[:2] for used in self.used_by(key) & keys} - {key[:2]}
        order = []
        while files:
            ready = [file for file, below in files.items() if not below & set(files)]
            if not ready:
                sys.exit(f"definitions.py: these files use one another: {sorted(files)}")
            order.append(ready[0])
            del files[ready[0]]
        return sorted(keys, key=lambda key: (order.index(key[:2]), self.places[key]))


def clauses_of(crate, module, function):
    """The lines of a public function's contract, and what its file brings in."""
    path = TOP / "crates" / crate / "src" / f"{module}.rt"
    lines = path.read_text().splitlines()
    starts = [place for place, line in enumerate(lines) if re.match(rf' *pub (extern "C" )?fn {function}[<(]', line)]
    if len(starts) != 1:
        sys.exit(f"definitions.py: {path} has {len(starts)} public functions {function}")
    kept, indent = [], re.match(" *", lines[starts[0]]).group()
    for line in lines[starts[0] :]:
        if line == indent + "{":
            break
        if kept or line.strip().startswith(("requires", "ensures")):
            kept.append(line.split("//")[0])
    if not kept:
        sys.exit(f"definitions.py: {path}: {function} has no clauses")
    return kept, imports_of([line.strip().replace("ghost use", "use") for line in lines])


def named_by(functions, definitions):
    """The definitions that the clauses of functions name."""
    found = set()
    for crate, module, function in functions:
        lines, imports = clauses_of(crate, module, function)
        for word in WORD.findall("\n".join(lines)):
            key = imports.get(word)
            if key and (TOP / "crates" / key[0]).exists():
                if key not in definitions:
                    sys.exit(f"definitions.py: {function} of {crate} names {'.'.join(key)}, which no file of specs/ defines")
                found.add(key)
    return found


def named_by_contracts(definitions):
    """The definitions that a contract of a public function, a trait or a type names."""
    found = set()
    for path in sorted(TOP.glob("crates/*/src/**/*.rt")):
        _, crate, *inside = path.relative_to(TOP).parts
        if "tests" in path.name or "tests" in inside:
            continue
        lines = path.read_text().splitlines()
        imports = imports_of([line.strip().replace("ghost use", "use") for line in lines])
        is_public, of_trait = True, False
        for line in lines:
            text = line.strip()
            if re.match(r'(pub(\(crate\))? )?(const )?(extern "C" )?fn ', text):
                is_public = text.startswith(("pub fn", "pub extern")) or (of_trait and line.startswith("    "))
            elif text == "{":
                is_public = False  # what a body calls isn't named by a clause
            elif text.startswith(("impl", "pub trait", "pub struct", "pub enum", "struct", "enum")):
                is_public, of_trait = True, text.startswith("pub trait") or " for " in text
            elif is_public and not text.startswith(("//", "ghost use", "use")):
                found |= {imports[word] for word in WORD.findall(text) if word in imports}
    return found & set(definitions)


def count(repository, keys):
    """How many definitions and lines these are."""
    return f"{len(keys)} definitions of {sum(len(repository.definitions[key].lines) for key in keys)} lines"


def listing(repository, keys):
    """A line for each file, with its definitions and their lines."""
    files = {}
    for key in repository.in_order(keys):
        files.setdefault(key[:2], []).append(key)
    text = []
    for (crate, module), inside in files.items():
        lines = {key[2]: len(repository.definitions[key].lines) for key in inside}
        names = ", ".join(f"`{name}` {count}" for name, count in lines.items())
        text.append(f"- `{crate}/specs/{module}.antt`, {sum(lines.values())} lines: {names}")
    return text


def private_files(repository):
    """The files that no public contract uses. Their names begin with `Private`, and no other's does."""
    public = repository.reached_from(named_by_contracts(repository.definitions))
    files = {key[:2] for key in repository.definitions}
    private = files - {key[:2] for key in public}
    for crate, module in sorted(files):
        if ((crate, module) in private) != module.startswith("Private"):
            sys.exit(f"the name of {crate}/specs/{module}.antt says the contrary of whom it serves")
    return sorted(private)


def parts(repository):
    """Each promise with its definitions that no promise before it has."""
    seen = set()
    for title, words, functions in PROMISES:
        keys = repository.reached_from(named_by(functions, repository.definitions)) - seen
        seen |= keys
        yield title, words, keys


def page(repository):
    """The text of the page."""
    text = ["# Definitions", ""]
    text += PREFACE
    for title, words, keys in parts(repository):
        text += ["", f"## {title}", "", words, "", f"{count(repository, keys)}.", "", *listing(repository, keys)]
    text += ["", "## What a reader may skip", ""]
    text.append("No contract of a public function, a trait or a type uses a definition of these files, whose names begin with")
    text.append("`Private`: they serve the contracts of private functions, which public ones are proved by.")
    text.append("")
    text += [f"- `{crate}/specs/{module}.antt`" for crate, module in private_files(repository)]
    return "\n".join(text) + "\n"


def stale(repository):
    """The documents that don't say what is so."""
    promised = [keys for _, _, keys in parts(repository)]
    headline, whole = count(repository, promised[0]), count(repository, set().union(*promised))
    found = [] if PAGE.read_text() == page(repository) else ["docs/DEFINITIONS.md isn't what definitions.py prints"]
    for name, words in [("README.md", headline), ("docs/PROVED.md", headline), ("docs/PROVED.md", whole)]:
        if words not in (TOP / name).read_text():
            found.append(f"{name} doesn't say: {words}")
    return found


def main():
    repository = Repository()
    if sys.argv[1:] == ["--check"]:
        found = stale(repository)
        print("\n".join(found), end="\n" if found else "")
        sys.exit(1 if found else 0)
    print(page(repository), end="")


main()
