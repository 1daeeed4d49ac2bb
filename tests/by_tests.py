#!/usr/bin/env python3
"""Wrong bodies that every contract lets through, and that a test refuses: each is made in a copy of the crates, whose program or tests are
run without a proof (`rt try`), and must not tell what the unchanged one does, which is made first.

    tests/by_tests.py [NAME..]
    tests/by_tests.py --texts        looks whether each can be made, and runs none

Ends with 1 where a wrong body passes, where its trial does not end in ten minutes, but for one that waits for ever, which the gate's limit for a
program refuses, or where the unchanged sources fail. Some two minutes of a processor for each, and for each crate that tells."""
import os
import shutil
import subprocess
import sys
import tempfile
from pathlib import Path

TOP = Path(__file__).resolve().parents[1]
ENGINE, SHELL = "test_engine", "sideways"
# For how many seconds a trial may run; what `rt try` ends with where it gave no answer by then.
HOW = {"env": os.environ | {"RT_SECONDS": "600"}, "capture_output": True, "text": True}
NOT_ENDED = 6
# Wrong bodies that wait for ever where the unchanged one ends.
ENDLESS = {"never_published"}
# Lines of a program's stdin, whose program it is, and what it tells; of a shell over a table of a row, with the status.
TRIALS = {
    "waited 0 count where a >= 10&count where b >= 6": (ENGINE, "legal; 3; 2; legal: 2 entries"),
    "met-in-run": (ENGINE, "3/---/2/; legal: 2 entries"),
    "counted 12 select b where a >= 10 and a <= 15": (ENGINE, "legal; 1: 7, 3: 5, 2 rows; 2 begun, 4 steps, 4 asked"),
    "told 0 insert 1, 9, 0|count where a < 10": (ENGINE, "legal; key 5; 2"),
    "viewed": (ENGINE, "4 1; 5 2; 5 2; 4 1; 4 1; 14 more, then 5 limit 16; 9 made 2 given 1; 2 entries"),
    "viewed-late 0": (ENGINE, "4 1; 1: 7, 2: 8, 3: 5, 4: 2, 4 rows; (2 removed); 2 1; 2: 8, 4: 2, 2 rows; 2 1; 2: 8, 4: 2, 2 rows; "
                              "9 made 1 given 0; 1 entries"),
    "shared": (ENGINE, "met; legal: 6000 entries"),
    "count\n.quit\ncount": (SHELL, "1/status 0"),
    ".history none/h.json": (SHELL, "status 3"),
}
# A name, what is wrong, the file, its text and the wrong one, and the trial or, of another crate, the test that fails.
BODIES = {
    "one_latch_for_all": ("Every select takes the latch of the first head, as if one lock lay round everything",
                          "sw_engine/src/engine.rt", "self.latches[head_of(query)].take(rt)", "self.latches[head_of(query) & 0].take(rt)",
                          "waited 0 count where a >= 10&count where b >= 6"),
    "blocks_in_turn": ("A run takes its blocks one after another though threads are asked for",
                       "sw_cli/src/running.rt", "    if workload.threads {\n        return make_at_once",
                       "    if workload.threads && workload.inputs.blocks.is_empty() {\n        return make_at_once", "met-in-run"),
    "no_maps": ("A select is answered by a scan of the rows, and no map is made or asked",
                "sw_engine/src/heads/latch.rt", "let (reply, scans) = ask(rt, alloc, head, query)?;", "let (reply, scans) = (head.scan(query)?, 0usize);",
                "counted 12 select b where a >= 10 and a <= 15"),
    "always_no_memory": ("Every insert is refused as if for want of memory",
                         "sw_engine/src/engine.rt", "        self.commit(rt, Call::Insert(cells))\n",
                         "        let _ = (rt, cells);\n        Err(Refusal::NoMemory)\n", "told 0 insert 1, 9, 0|count where a < 10"),
    "never_published": ("What was changed beside a viewer is never published, as if one always read, and who publishes waits for ever", "sw_versions/src/shelf.rt",
                        "if copies.is_read() {", "if copies.is_read() || many < u64::MAX {", "viewed"),
    "viewers_always_refused": ("A viewer is refused each query, as if the copy lacked updates", "sw_engine/src/viewing.rt",
                               "        self.reader.answer(query)\n",
                               "        let _ = query;\n        Err(Refusal::Ahead { seen: 1, told: 0 })\n", "viewed-late 0"),
    "runs_share_no_head": ("A run whose sessions share heads opens its engine by latches for one thread", "sw_cli/src/running.rt",
                           "make_by::<J, M, SharedLatch<J, M>, O, R>", "make_by::<J, M, AloneLatch<J, M>, O, R>", "shared"),
    "nothing_at_rest": ("No select is answered by a head as it stands, so that each has the head alone", "sw_engine/src/engine.rt",
                        "if head.may_have(self.came.load(Ordering::SeqCst)) {", "if head.may_have(u64::MAX) {", "shared"),
    "one_after_the_other": ("Maps that lack much are stepped one after the other",
                            "sw_set/src/prepare/at_once.rt", "front, many.max(1), &step", "front, 1, &step", "test_areas"),
    "attributes_from_the_last": ("Missing maps are made in the order of the key, then of the attributes from the last on",
                                 "sw_set/src/prepare/making.rt", "ensure_map(area, tails, tails[i], cells)?;",
                                 "ensure_map(area, tails, tails[if i == 0 { 0 } else { tails.len() - i }], cells)?;", "test_areas"),
    "one_refused_stops_all": ("Of maps that are stepped one after the other none is stepped after one that was refused",
                              "sw_set/src/prepare/at_once.rt", "    step_in_turn(rest, course);\n",
                              "    for it in rest.iter_mut() {\n        if align_box(it, course).is_err() {\n"
                              "            return;\n        }\n    }\n", "test_areas"),
    "asked_a_third_time": ("An area that is short again is asked a third time",
                           "sw_chunks/src/answering.rt", "        told = ready_again(asking, &mut areas[k]);\n",
                           "        told = ready_again(asking, &mut areas[k]);\n        if told.is_err() {\n"
                           "            told = ready_again(asking, &mut areas[k]);\n        }\n", "test_heads"),
    "use_at_rest_not_noted": ("A query that a head answers as it stands does not count as a use of its maps", "sw_chunks/src/head.rt",
                              "        Some(self.tick())\n", "        None\n", "test_heads"),
    "areas_used_alike": ("A query at rest counts as one that used the same maps, whichever areas it touches", "sw_chunks/src/resting.rt",
                         "used |= 256 << (k % 16);", "used |= 256;", "test_heads"),
    "begun_after_contention": ("A map whose growth found the budget contended is begun again",
                               "sw_set/src/prepare/making.rt", "        Err(Refusal::Contended { seen, found }) => {\n"
                               "            return Err(Refusal::Contended { seen, found });\n        }\n", "", "test_heads"),
    "quit_passed_by": ("A shell goes on behind .quit", "sw_shell/src/turns.rt", "        Command::Quit => return Ok(false),\n",
                       "        Command::Quit => return Ok(true),\n", "count\n.quit\ncount"),
    "history_not_asked_for": ("A shell does not hand on where the history is to go", "sw_shell/src/turns.rt",
                              "host.obeys(seat.schema(), line, Errand::History(file))", "host.obeys(seat.schema(), line, Errand::Names)",
                              ".history none/h.json"),
}


def copied(folder):
    for name in ("crates.txt", "HANDLES"):
        shutil.copy(TOP / name, folder / name)
    shutil.copytree(TOP / "crates", folder / "crates", ignore=shutil.ignore_patterns("out", "must-fail"))


def changed(folder, body):
    """The file of the crates in a folder in which a body is made, and its text then."""
    _, file, old, new, _ = body
    path = folder / "crates" / file
    text = path.read_text()
    if text.count(old) != 1:
        sys.exit(f"by_tests.py: {file} does not have this text once: {old.strip()}")
    return path, text.replace(old, new)


def shell_of(folder, lines):
    """What a shell writes for lines, and its status."""
    table = folder / "t.csv"
    table.write_text("a:int\n5\n")
    done = subprocess.run(["rt", "try", "--data", f"t.csv={table}", "--", "shell", "t.csv"], cwd=folder, input=lines + "\n", **HOW)
    return "/".join([*done.stdout.splitlines(), f"status {done.returncode}"])


def tried(folder, crate, places):
    """What a program tells of lines of its input, or whether the tests of a crate pass; nothing where the trial did not end."""
    folder = folder / "crates" / crate
    if crate == SHELL:
        return [shell_of(folder, lines) for lines in places]
    if places != [crate]:
        done = subprocess.run(["rt", "try"], cwd=folder, input="\n".join(places) + "\n", **HOW)
        told = done.stdout.splitlines() or [f"status {done.returncode}"]
    else:
        done = subprocess.run(["rt", "try", "--test"], cwd=folder, **HOW)
        told = ["passed" if done.returncode == 0 else f"failed, status {done.returncode}"]
    return None if done.returncode == NOT_ENDED else told


def made(crate, places, body=None):
    with tempfile.TemporaryDirectory() as name:
        folder = Path(name)
        copied(folder)
        if body:
            path, text = changed(folder, body)
            path.write_text(text)
        return tried(folder, crate, places)


def right_of(crate, known):
    """What the unchanged sources tell of each trial of a crate, made once."""
    if crate not in known:
        places = [place for place, (of, _) in TRIALS.items() if of == crate] or [crate]
        known[crate] = dict(zip(places, made(crate, places) or []))
    return known[crate]


def main():
    if sys.argv[1:] == ["--texts"]:
        for body in BODIES.values():
            changed(TOP, body)
        print(f"by_tests: {len(BODIES)} bodies, 0 that cannot be made")
        return 0
    failed, known = False, {}
    for name in sys.argv[1:] or list(BODIES):
        body = BODIES[name]
        place = body[-1]
        crate, wanted = TRIALS.get(place, (place, "passed"))
        right, told = right_of(crate, known).get(place), made(crate, [place], body)
        wrong = "not ended" if told is None else "/".join(told)
        well = right == wanted and wrong != right and (told is None) == (name in ENDLESS)
        failed = failed or not well
        print(f"{'ok' if well else 'FAILED'}: {name}: {body[0]}\n    {place}\n    unchanged: {right}\n    wrong: {wrong}", flush=True)
    return 1 if failed else 0


if __name__ == "__main__":
    sys.exit(main())
