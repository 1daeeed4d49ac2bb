"""Sorts refusals of wrong bodies by where they came, tries controls, and prints a table for each crate (tests/REFUSALS.md).

A control, tests/controls/CRATE/NAME.edit, is a text of the same meaning as the real body at the place of a wrong one, which has
to be proved; or one line, 'lemma: NAME FILE', names a lemma that no body does what the wrong one does. Ends with status 1 where
a body of tests/feared.txt is refused elsewhere than at a goal that the search proves in the real body, and has no control that
is proved, or has one that is not."""

import glob
import os
import re
import shutil
import subprocess
import sys
import tempfile

from bodies import TOP, Unfit, apply, functions, lemma_of, path_of, text_of

RT = os.environ.get("RT", "rt").split()
TOLD = re.compile(r"^(?:rt: must-fail|wrong:) (\w+)/([\w-]+)(?:\.edit)?: (.*)", re.M)


def kind_of(goal):
    """What a goal is about: a clause, what a call requires, or the whole answer of a function with one clause."""
    found = re.search(r"clause-(\w+)$", goal)
    return found[1] if found else "returns" if goal.startswith("returns") else re.sub(r"-\d+$", "", goal)


def where(crate, said):
    """Where a refusal came, and the goal that stayed open, if it is told."""
    if not said.startswith("refused"):
        return said.split(":")[0], ""
    at, goal = re.search(r"(src|proofs)/([\w/]+)\.\w+:(\d+)", said), re.search(r"\(`([^`)]+)(`?)", said)
    if not at or at[1] == "proofs":
        return "proof" if at else "no line", ""
    name, folder = goal[1] if goal else "", f"{TOP}/crates/{crate}"
    above = text_of(f"{folder}/src/{at[2]}.rt").split("\n")[: int(at[3])]
    function = next((it[1] for it in (re.search(r"\bfn (\w+)", line) for line in reversed(above)) if it), "")
    answers = glob.glob(f"{folder}/proofs/**/{function}/Answers.antt", recursive=True)
    hands = {kind_of(it) for path in answers if f"/{at[2]}/" in path for it in re.findall(r"^pub (\S+) :", text_of(path), re.M)}
    return "by hand" if kind_of(name) in hands else "goal", f"`{name}`" if goal and goal[2] else f"`{name}..`"


def linked(one, other):
    """Gives a file of a library, which rt never writes into, a second name; a copy where that cannot be."""
    try:
        os.link(one, other)
    except OSError:
        shutil.copy2(one, other)


def is_proved(crate, edits):
    """Whether the functions that these edits change are proved with them, in a copy, over the libraries that stand proved here: no other
    function sees more of them than their clauses."""
    with tempfile.TemporaryDirectory(prefix="refusals-") as room:
        shutil.copytree(f"{TOP}/crates", f"{room}/crates", ignore=shutil.ignore_patterns("out"))
        for name in ("crates.txt", "HANDLES"):
            shutil.copy(f"{TOP}/{name}", room)
        for built in glob.glob(f"{TOP}/crates/*/out/rlib"):
            if f"/{crate}/out/" not in built:
                shutil.copytree(built, built.replace(TOP, room), copy_function=linked)
        folder = f"{room}/crates/{crate}"
        for edit in edits:
            apply(edit, folder)
        how = {"cwd": folder, "stdout": subprocess.DEVNULL, "stderr": subprocess.STDOUT}
        changed = sorted({name for edit in edits for name in functions(crate, edit)})
        return subprocess.run([*RT, "check", "--jobs", "1", *[word for it in changed for word in ("--only", it)]], **how).returncode == 0


def controls_of(crate, names):
    """What the controls of these wrong bodies come to: all at once, and where that is not proved each by itself."""
    found = {name: f"{TOP}/tests/controls/{crate}/{name}.edit" for name in names}
    found = {name: edit for name, edit in found.items() if os.path.isfile(edit)}
    lemmas = {name: lemma_of(edit) for name, edit in found.items()}
    stands = lambda it: f"pub {it[1]} :" in text_of(f"{TOP}/crates/{crate}/{it[2]}")
    told = {name: "refuted" if stands(it) else "fails" for name, it in lemmas.items() if it}
    bodies = {name: edit for name, edit in found.items() if name not in told}
    if bodies and is_proved(crate, bodies.values()):
        return told | dict.fromkeys(bodies, "passes")
    return told | {name: "passes" if len(bodies) > 1 and is_proved(crate, [edit]) else "fails" for name, edit in bodies.items()}


def tried_by(crate):
    """The words that try the wrong bodies of a crate."""
    return [*RT, "must-fail", crate] if os.path.isdir(f"{TOP}/crates/{crate}/must-fail") else [sys.executable, f"{TOP}/tests/wrong.py", crate]


def tell_controls(words):
    """Tells of each control of crates, or of one of them, what it comes to."""
    told = []
    for crate, _, name in (word.partition("/") for word in words):
        names = [name] if name else sorted(it[:-5] for it in os.listdir(f"{TOP}/tests/controls/{crate}"))
        for it, control in controls_of(crate, names).items():
            print(f"{crate}/{it}: {control}", flush=True)
            told.append(control)
    return 1 if "fails" in told or not told else 0


def main(words):
    if not words or words == ["--controls"]:
        sys.exit("usage: tests/refusals.sh CRATE.. | --log FILE [CRATE..] | --controls CRATE[/NAME]..")
    if words[0] == "--controls":
        return tell_controls(words[1:])
    how = {"cwd": TOP, "stdout": subprocess.PIPE, "stderr": subprocess.STDOUT, "encoding": "utf-8", "errors": "replace"}
    said = text_of(words[1]) if words[0] == "--log" else "".join(subprocess.run(tried_by(it), **how).stdout for it in words)
    crates = words[2:] if words[0] == "--log" else words
    tried, lost = {}, []
    for crate, name, told in TOLD.findall(said):
        if not crates or crate in crates:
            tried.setdefault(crate, {})[name] = where(crate, told)
    feared = {line.split()[0] for line in text_of(f"{TOP}/tests/feared.txt").split("\n") if line and line[0] != "#"}
    for crate, places in tried.items():
        controls = controls_of(crate, places)
        wanted = {"goal": (None, "passes", "refuted")}
        shown = [name for name, (place, _) in places.items() if controls.get(name) in wanted.get(place, ("passes", "refuted"))]
        print(f"\n### {crate}: {len(shown)} of {len(places)}\n\n| Wrong body | Refused by | Where | Goal | Control |\n|---|---|---|---|---|")
        for name, (place, goal) in places.items():
            first = text_of(path_of(crate, name)).split("\n")[0]
            clause = re.sub(r"^.*?[;:] refused (by )?", "", first).rstrip(".")
            control = controls.get(name, "" if place == "goal" else "none")
            print(f"| {name} | {clause} | {place} | {goal} | {control} |")
        lost += sorted(it for it in feared if it.split("/")[0] == crate and it.split("/")[1] not in shown)
    if not tried:
        sys.exit("nothing was tried: " + said[-400:])
    for it in lost:
        print(f"\n{it} shows nothing: it was not tried, or has neither a plain goal nor a control.")
    return 1 if lost else 0


if __name__ == "__main__":
    try:
        sys.exit(main(sys.argv[1:]))
    except Unfit as fault:
        sys.exit(f"refusals: {fault}")
