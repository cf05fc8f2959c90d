#!/usr/bin/env python3
"""answers.py CRATE: writes general tactics as answers for the goals on which the prover searches long, and for those that an
edit's function owes; keeps what proves and saves time, and prints the seconds before and after.

answers.py --slow CRATE       leaves those out that only an edit's function owes
answers.py --times CRATE      lists the functions of a crate by the seconds that their goals took in the last check
answers.py --without EDIT ..  tries edits (paths) with these answers taken out of their crates

Without an answer the prover tries `search` first, and again to print proof files that nobody reads where a goal breaks. An answer
names one tactic and no term of the code, so that an edit of the code breaks no name in it. Each goal of a loop or of a return gets
`grind (arith, common_steps)`; where that doesn't prove, `search rules`, which only spares the printing; and where neither does,
the goal stays without an answer.

It works in the crate's folder, over what earlier checks kept; times are those between the files that a check with one job saves.
"""
import collections
import os
import pathlib
import re
import subprocess
import sys
import tempfile

from bodies import CRATES, TOP, Crate, copy_crates, must_fail

TACTICS = ("grind (arith, common_steps)", "search rules")
USES = {
    "arith": "use Rattle.std.proofs.Common.{arith}",
    "common_steps": "use Rattle.std.proofs.lemmas.Grind.{common_steps}",
    "rules": "use Rattle.std.proofs.Common.{rules}",
}
# Seconds of search above which a function's goals are answered, and what an answer has to save.
LONG, SAVES = float(os.environ.get("LONG", "1.0")), 0.3
GOAL = re.compile(r"^(returns|loop-\S+-(init|preserved)$|\S+-init$|\S+-preserved$)")


def saved(crate):
    """The modules that checks of a crate saved, each with its time, in the order in which they were saved."""
    found = []
    for at, _, names in os.walk(crate / "out" / "incremental"):
        if not at.endswith("records"):
            found += [(os.stat(f"{at}/{name}").st_mtime, name[: -len(".oantt")]) for name in names if name.endswith(".oantt")]
    return sorted(found)


def searched(crate):
    """From each function to the seconds that its goals took, read off the times at which a check saved its modules."""
    times, files = collections.Counter(), saved(crate)
    head = f"Rattle-{crate.name}-proofs."
    for (before, _), (after, module) in zip(files, files[1:]):
        function, _, part = module.rpartition(".")
        if part in ("Proof", "Answers") and function.startswith(head):
            times[function[len(head) :].replace(".", "/")] += after - before
    return times


def run_rt(crate, *words):
    command = [sys.executable, str(TOP / "bin" / "build.py"), "--rt", *words]
    done = subprocess.run(command, cwd=crate, stdout=subprocess.PIPE, stderr=subprocess.STDOUT, text=True, errors="replace", check=False)
    return done.returncode, done.stdout


def edited(crate):
    """The functions of a crate that edits of the gate change, by their names without the module's path."""
    return {one.plain for edit in Crate(crate).edits() if edit.in_gate for one in edit.touched}


def proved_by_goals(crate):
    """The functions of a crate whose proofs the check generates, as paths below proofs/, closures left out."""
    head = f"Rattle-{crate.name}-proofs."
    paths = {module[len(head) :].rpartition(".")[0].replace(".", "/") for _, module in saved(crate) if module.startswith(head) and module.endswith(".Tie")}
    return {path for path in paths if "/fn/" not in path and not path.startswith("fn/") and "+" not in path}


def offered(crate, functions):
    """For each function the file that the check offers for all its goals: its lines of use, and each goal's head."""
    found = {}
    with tempfile.TemporaryDirectory() as room:
        words = [word for path in functions for word in ("--start", path.replace("/", "::"))]
        run_rt(crate, "check", "--jobs", "1", *words, "--generated", room)
        for path in functions:
            file = pathlib.Path(room) / f"Rattle-{crate.name}-proofs" / path / "AnswersOffered.antt"
            if file.exists():
                found[path] = file.read_text()
    return found


def goals_in(text):
    """From each goal of an answers file to its block of lines."""
    return {it[1]: it[0] for it in re.finditer(r"^pub (\S+) : goal\.\S+\n(?:(?!\n|pub |--).+\n|\n(?=[ \t]))*", text, re.M)}


def covers(one, other):
    """Whether two goals are one, or one a clause of the other."""
    return one == other or one.startswith(f"{other}-clause-") or other.startswith(f"{one}-clause-")


def heads(offer, known):
    """The goals of an offer that want an answer, each with the head of its definition and the first tactic."""
    found = {}
    for name, block in goals_in(offer).items():
        if GOAL.match(name) and not any(covers(name, other) for other in known):
            found[name] = block.rstrip("\n").replace(" = ?", ""), 0
    return found


def with_uses(text, path, crate, tactics):
    """The text with the lines of use that the tactics and the goals need."""
    lines = []
    imported = " ".join(re.findall(r"^use [^\n]*", text, re.M))
    for word, line in USES.items():
        if word in re.findall(r"\w+", " ".join(tactics)) and not re.search(rf"[{{ ,]{word}[,}}]", imported):
            lines.append(line)
    if " as goal" not in imported:
        lines.append(f"use Rattle.{crate.name}.proofs.{path.replace('/', '.')}.Goals as goal")
    uses = re.findall(r"^use [^\n]*\n", text, re.M)
    body = text
    for line in uses:
        body = body.replace(line, "", 1)
    return "".join(uses) + "".join(f"{line}\n" for line in lines) + "\n" + body.lstrip("\n")


def write(crate, path, before, answers):
    """Writes a function's answers after those that it has: of each goal the head, and which tactic it gets."""
    file = crate / "proofs" / path / "Answers.antt"
    if not answers:
        if before is None:
            file.unlink(missing_ok=True)
        else:
            file.write_text(before)
        return
    file.parent.mkdir(parents=True, exist_ok=True)
    blocks = "\n".join(f"{head} = {TACTICS[turn]}\n" for head, turn in answers.values())
    tactics = {TACTICS[turn] for _, turn in answers.values()}
    file.write_text(with_uses(before or "", path, crate, tactics).rstrip("\n") + "\n\n" + blocks)


def refused(crate, said, path):
    """The goals of a function's answers that a check refused."""
    text = (crate / "proofs" / path / "Answers.antt").read_text().split("\n")
    found = set()
    for line in re.findall(rf"proofs/{re.escape(path)}/Answers\.antt:(\d+):\d+: error", said):
        for at in range(int(line) - 1, -1, -1):
            named = re.match(r"pub (\S+) : goal\.", text[at])
            if named:
                found.add(named[1])
                break
    return found


def answer(crate, with_edits):
    """Writes answers, and keeps what proves and saves."""
    before = searched(crate)
    touched = edited(crate) if with_edits else set()
    known = proved_by_goals(crate)
    chosen = sorted(path for path in known if before[path] >= LONG or path.rpartition("/")[2] in touched)
    files = {path: (crate / "proofs" / path / "Answers.antt") for path in chosen}
    texts = {path: file.read_text() if file.exists() else None for path, file in files.items()}
    offers = offered(crate, chosen)
    answers = {path: heads(offers[path], goals_in(texts[path] or "")) for path in chosen if path in offers}
    print(f"{crate.name}: {len(chosen)} functions, {sum(map(len, answers.values()))} goals", flush=True)
    for path, given in answers.items():
        write(crate, path, texts[path], given)
    for turn in range(6):
        status, said = run_rt(crate, "check", "--jobs", os.environ.get("JOBS", "1"))
        if status == 0:
            break
        lost = {path: refused(crate, said, path) & set(given) for path, given in answers.items() if given}
        if not any(lost.values()):
            print(said[-3000:])
            print(f"{crate.name}: not proved for another reason")
            return 1
        for path, names in lost.items():
            for name in names:
                head, tactic = answers[path].pop(name)
                if tactic + 1 < len(TACTICS):
                    answers[path][name] = head, tactic + 1
            if names:
                write(crate, path, texts[path], answers[path])
        print(f"{crate.name}: turn {turn + 1}: {sum(map(len, lost.values()))} goals aren't proved by their tactic", flush=True)
    after = searched(crate)
    total, back = 0.0, False
    for path, given in sorted(answers.items(), key=lambda it: -before[it[0]]):
        spared = before[path] - after[path]
        is_edited = path.rpartition("/")[2] in touched
        keeps = given and (spared >= SAVES or is_edited and spared > -SAVES)
        if given and not keeps:
            write(crate, path, texts[path], {})
            back = True
        total += spared if keeps else 0
        if given or before[path] >= LONG:
            print(f"{path}: {len(given)} answers, {before[path]:.1f} s, then {after[path]:.1f} s{'' if keeps else ', left as it was'}")
    print(f"{crate.name}: saves {total:.1f} s", flush=True)
    return run_rt(crate, "check", "--jobs", "1")[0] if back else 0


def take_out(crate):
    """Takes the answers of this tool out of a copied crate."""
    tactics = "|".join(map(re.escape, TACTICS))
    for file in (crate / "proofs").rglob("Answers.antt"):
        text = file.read_text()
        left = re.sub(rf"\n?pub \S+ : goal\.\S+\n\S+[^=\n]* = (?:{tactics})\n", "", text)
        if left != text and goals_in(left):
            file.write_text(left)
        elif left != text:
            file.unlink()


def without(edits):
    """Tries edits with the answers of this tool taken out of the crates that they change."""
    crates = collections.defaultdict(list)
    for path in map(pathlib.Path, edits):
        folder = path.resolve().parent
        crates[folder.parent.name if folder.name == "must-fail" else folder.name].append(path)
    with tempfile.TemporaryDirectory(prefix="edits-") as folder:
        room = pathlib.Path(folder)
        copy_crates(room, [(crate, path) for crate, paths in crates.items() for path in paths])
        for crate in crates:
            take_out(room / "crates" / crate)
        return max(must_fail(room, crate) for crate in crates)


def main(words):
    if words[:1] == ["--times"]:
        for path, seconds in searched(CRATES / words[1]).most_common(40):
            print(f"{seconds:6.1f} {path}")
        return 0
    if words[:1] == ["--without"]:
        return without(words[1:])
    names = [word for word in words if word != "--slow"]
    return max(answer(CRATES / name, "--slow" not in words) for name in names)


if __name__ == "__main__":
    sys.exit(main(sys.argv[1:]))
