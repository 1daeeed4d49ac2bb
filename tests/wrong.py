#!/usr/bin/env python3
"""Tries the wrong bodies of tests/wrong: the check must refuse each, by a goal of a function that it changes.

    tests/wrong.py [--jobs N] [--anew] [CRATE[/NAME]..]    all of them, or those of some crates
    tests/wrong.py --most N [CRATE..]                      of each crate those of tests/feared.txt, and others up to N
    tests/wrong.py --texts                                 whether each, and each control, can be made of the text that stands; proves nothing

A function is proved by its own text and the clauses of what it calls. So bodies that change different functions stand in one copy of
the crate. Of functions that the search proves by itself, `--start` tells which goals it leaves open, and proves nothing of what they call:
a body is refused where one is left. One check of the others, whose proofs have answers, tells of each whether a goal in src/ stays open,
or a line of the function's own proof no longer holds (a control tells whether by its form alone: REFUSALS.md). What shows neither is
tried again without those that were refused, and at last by itself: it is not refused where it is proved, or where only another function
fails, and not tried where the check could not be read to its end, was killed or hit a limit, or its text does not stand once in a
function's body. Each of these ends the trial with status 1.

The libraries below a crate are those that `rt ci` or `rt lib` left; one that is not made of the text that stands is proved first. Every
trial begins with its own test: a control beside a wrong body of what it calls, and texts that cannot be tried.

A body that an earlier trial on this machine saw refused, of the same files of its crate and of those below, by the same toolchain and the same
text of this file, is not tried again, as `rt ci` proves nothing again that it proved; with `--anew` it is.
"""
import argparse
import collections
import contextlib
import glob
import hashlib
import os
import re
import shutil
import subprocess
import sys
import tempfile
from concurrent.futures import ThreadPoolExecutor

from bodies import TOP, Unfit, changed, lemma_of, pairs_of, path_of, spans_of, text_of

SECONDS = 1800  # of one check
PLACE = re.compile(r"(?:\./|note: )?((?:src|proofs)/\S+?):(\d+):\d+: (.*)")
HOLE = re.compile(r"^-- (src/\S+:\d+:\d+)\npub (\S+) : .*\n\2 .*= \?$", re.M)
# What an error says where a text names what is not there.
UNREAD = re.compile(r"is not in scope|has no field|has no `|is no name|was not admitted|operand is missing|expected the end|cannot continue")
Result = collections.namedtuple("Result", "said status")


def kit():
    """The toolchain's own module, which knows the words of a check."""
    page = subprocess.run(["rt", "doc"], stdout=subprocess.PIPE, check=True, encoding="utf-8").stdout.strip()
    sys.path.insert(0, f"{os.path.dirname(page)}/bin")
    import rtlib

    return rtlib


class Body:
    """A wrong body: its crate and name, its changes, and the functions that they change."""

    def __init__(self, crate, name, pairs):
        self.crate, self.name, self.pairs, self.functions = crate, name, pairs, changed(pairs, f"{TOP}/crates/{crate}")[1]

    def refusal(self, said, folder, is_alone):
        """The line that refuses it in what a check of a copy said: at a goal of its functions, or else of a proof of one of them; where it
        stands alone there, so that nothing else can be the cause, also a line of that proof that names what is there no more."""
        lines = said.split("\n")
        lost = [it for it in self.functions if any(re.match(rf"fn {self.crate}::{re.escape(it)}: (?:not proved|no proof)", one) for one in lines)]
        spans = {file: [it for it in spans_of(file, text_of(f"{folder}/{file}"), folder) if it[0] in lost] for file, _, _ in self.pairs}
        by_proof = by_name = ""
        for line in lines:
            place = PLACE.match(line)
            if not place:
                continue
            is_own = any(place[1].startswith(f"proofs/{it.replace('::', '/')}/") for it in lost)
            if is_goal(place[3]) and any(it[1] <= int(place[2]) - 1 <= it[3] for it in spans.get(place[1], [])):
                return line
            if is_own and is_goal(place[3]):
                by_proof = by_proof or line
            elif is_own and is_alone and place[3].startswith("error: "):
                by_name = by_name or line
        stays = [it for one in lost for it in lines if re.match(rf"fn {self.crate}::{re.escape(one)}: .*`search` did not prove ", it)]
        return by_proof or "".join(stays[:1]) or by_name


class Trial:
    """The checks of one crate with wrong bodies, one after another. What one has checked stays in a folder for the next, until the last ended."""

    def __init__(self, crate, rtlib):
        self.crate, self.rtlib, self.seconds, self.kept = crate, rtlib, 0.0, tempfile.TemporaryDirectory(prefix="wrong-")
        words = crate.words(["--jobs", "1", "--incremental", self.kept.name], keeps=False)
        self.words = [*rtlib.guarded(), "timeout", "--foreground", str(SECONDS), rtlib.RATTLE, "check", *words]

    @contextlib.contextmanager
    def copy(self, bodies):
        """A copy of the crate with all of these bodies."""
        with tempfile.TemporaryDirectory(prefix="wrong-") as folder:
            for part in self.rtlib.PARTS:
                if os.path.isdir(f"{self.crate.folder}/{part}"):
                    shutil.copytree(f"{self.crate.folder}/{part}", f"{folder}/{part}")
            for body in bodies:
                for file, text in changed(body.pairs, folder)[0].items():
                    with open(f"{folder}/{file}", "w", encoding="utf-8") as it:
                        it.write(text)
            yield folder

    def started(self, bodies):
        """For those of these bodies whose functions have no answers, in one copy, a goal that the search leaves open: `--start` writes down what
        it leaves, and proves no other function."""
        bodies = [it for it in bodies if not any(os.path.isfile(answers(self.crate.folder, one)) for one in it.functions)]
        if not bodies:
            return {}
        with self.copy(bodies) as folder:
            invariants = lambda where, name: os.path.isfile(answers(where, name).replace("Answers", "Invariants"))
            result = self.ran([word for body in bodies for it in body.functions for word in ("--start", it)], folder)
            if result.status != 0 or not re.match(r"started=\d+", result.said.strip().split("\n")[-1]):
                return {}
            found = {}
            for body in bodies:
                # (an invariant that was not found would leave all goals of its loop)
                names = [it for it in body.functions if invariants(self.crate.folder, it) or not invariants(folder, it)]
                goals = [goal for it in names if os.path.isfile(answers(folder, it)) for goal in HOLE.findall(text_of(answers(folder, it)))]
                if goals:
                    found[body] = f"note: {goals[0][0]}: it is not proved, by the search alone (`{goals[0][1]}`)"
            return found

    def check(self, bodies):
        """What a check of the functions that these bodies change says, with all of them in a copy, and for each the line that refuses it."""
        with self.copy(bodies) as folder:
            only = [word for body in bodies for name in body.functions for word in ("--only", name)]
            result = self.ran(only, folder)
            return result, {body: body.refusal(result.said, folder, len(bodies) == 1) for body in bodies if is_read(result)}

    def ran(self, words, folder):
        """What a check with these words says; once more where it is killed, most likely for memory, which another check held."""
        result = self.ran_once(words, folder)
        return self.ran_once(words, folder) if result.status in (-9, 137) else result

    def ran_once(self, words, folder):
        """Runs one check, and counts its time."""
        with tempfile.TemporaryFile("w+", errors="replace") as told:
            ran = subprocess.Popen([*self.words, *words], cwd=folder, stdin=subprocess.DEVNULL, stdout=told, stderr=subprocess.STDOUT)
            _, status, used = os.wait4(ran.pid, 0)
            ran.returncode = os.waitstatus_to_exitcode(status)
            self.seconds += used.ru_utime + used.ru_stime
            told.seek(0)
            return Result(told.read(), ran.returncode)

    def alone(self, body):
        """What a body comes to by itself: the line that refuses it, or else what is wrong."""
        result, found = self.check([body])
        lines = result.said.strip().split("\n")
        if not is_read(result):
            fault = next((it for it in lines if re.search(r"\berror\b|could not tell|no verdict", it)), lines[-1])
            return "", f"NOT TRIED: its check ended with status {result.status}: {fault[:200]}"
        if result.status == 0:
            return "", "NOT REFUSED: what it changes is still proved"
        fault = next((it for it in lines if PLACE.match(it)), lines[-1])
        return found[body], "" if found[body] else f"NOT REFUSED by a goal of what it changes: {fault[:200]}"

    def told(self, bodies):
        """For each of these bodies, the line that refuses it or what is wrong: by what the search leaves; then by a check of all that are
        left, as long as some are refused; and the last by themselves."""
        found = self.started(bodies)
        left = [it for it in bodies if it not in found]
        while len(left) > 1:
            refused = {body: line for body, line in self.check(left)[1].items() if line}
            found.update(refused)
            left = [it for it in left if it not in refused]
            if not refused:
                break
        return [(body, *((found[body], "") if body in found else self.alone(body))) for body in bodies]


def store():
    """The folder where refusals are kept on this machine; none where it can be no folder of one's own."""
    folder = f"{os.environ.get('XDG_CACHE_HOME') or os.path.expanduser('~/.cache')}/sideways/wrong"
    with contextlib.suppress(OSError):
        if os.path.isabs(folder):
            os.makedirs(folder, 0o700, exist_ok=True)
            return folder if os.stat(folder).st_uid == os.getuid() else None
    return None


class Refusals:
    """The refusals that trials on this machine saw: a file for each body, whose name is the sum of all that the trial read."""

    def __init__(self, rtlib, crates):
        self.rtlib, self.crates, self.folder = rtlib, crates, store()
        self.sums = self.sum_all()

    def sum_all(self):
        """For each crate the sum of what it is made from: its files and words, those of the crates below, the toolchain and these scripts."""
        sum_of = lambda it: hashlib.sha256(repr(it).encode()).hexdigest()
        tools = [text_of(it) for it in (f"{self.rtlib.KIT}/WHAT", __file__, f"{TOP}/tests/bodies.py")]
        own = {}
        for crate in self.crates.values():
            files = [(os.path.relpath(it, crate.folder), self.rtlib.sum_of(it)) for it in self.rtlib.files_of(crate.folder)]
            own[crate.name] = sum_of([crate.name, crate.said, crate.has_c, sorted(files)])
        return {it.name: sum_of([tools, own[it.name], sorted(own[low.name] for low in it.below())]) for it in self.crates.values()}

    def place(self, body):
        name = repr([self.sums[body.crate], body.name, body.pairs])
        return f"{self.folder}/{hashlib.sha256(name.encode()).hexdigest()}"

    def line(self, body):
        """The line by which an earlier trial saw this body refused; empty where none did."""
        with contextlib.suppress(OSError, ValueError):
            title, _, line = text_of(self.place(body)).partition("\n") if self.folder else ("", "", "")
            return line.strip() if title == f"{body.crate}/{body.name}" else ""
        return ""

    def keep(self, told):
        """Keeps the lines of these bodies, but of crates of which a file was changed since the trial began."""
        now = self.sum_all() if self.folder and told else {}
        for body, line in told.items():
            if now.get(body.crate) == self.sums[body.crate]:
                with contextlib.suppress(OSError):
                    with open(f"{self.place(body)}.{os.getpid()}", "w", encoding="utf-8") as it:
                        it.write(f"{body.crate}/{body.name}\n{line}\n")
                    os.replace(it.name, self.place(body))


def is_read(result):
    """Whether a check was run to its end, so that it tells of each function."""
    return result.status in (0, 1) and re.match(r"only=\d+ proved=\d+", result.said.strip().split("\n")[-1])


def answers(folder, function):
    """The file of a function's answers, in the folder of a crate."""
    return f"{folder}/proofs/{function.replace('::', '/')}/Answers.antt"


def is_goal(said):
    """Whether a line says of a goal that it is open, or that its proof does not hold, and not that a name is not there."""
    return said.startswith("it is not proved that ") or said.startswith("error: `") and not UNREAD.search(re.sub("`[^`]*`", "", said))


def batches(bodies):
    """Bodies in as few lists as may be, no two of one list changing one function."""
    lists = []
    for body in bodies:
        place = next((it for it in lists if not any({*body.functions} & {*one.functions} for one in it)), None)
        if place is None:
            lists.append([body])
        else:
            place.append(body)
    return lists


def tests_itself(rtlib, crates):
    """Whether the trial tells a wrong body from what is none: what it said wrongly, a line each."""
    crate, file = crates["sw_table"], "src/live.rt"
    control = Body(crate.name, "row_stays", pairs_of(f"{TOP}/tests/controls/sw_table/row_stays.edit"))
    below = Body(crate.name, "any_key_found", pairs_of(path_of("sw_table", "any_key_found")))
    same = Body(crate.name, "same", [("src/numbers.rt", "Numbers { first: 1, many }", "Numbers { many, first: 1 }")])
    unread = Body(crate.name, "unread", [(file, "self.live[place] = false;", "self.live[place] = no_such_name;")])
    trial = Trial(crate, rtlib)
    left, refused = trial.started([same, below]), [it for it, line in trial.check([control, below])[1].items() if line]
    told = {"left by the search": " ".join(it.name for it in left) + ".", "refused beside each other": " ".join(it.name for it in refused) + "."}
    told |= {it.name: "".join(trial.alone(it)) for it in (control, unread)}
    wanted = dict.fromkeys(("left by the search", "refused beside each other"), f"{below.name}.")
    wanted |= {control.name: "NOT REFUSED: what it changes is still proved", unread.name: "NOT TRIED: its check ended with status 1"}
    wrong = [f"{name}: {told[name]}" for name, line in wanted.items() if not told[name].startswith(line)]
    for pairs in [(file, "no such text", "")], [(file, "impl Model", "impl Model")], [("specs/Live.antt", "Living", "Living")]:
        try:
            wrong.append(f"{Body(crate.name, 'unfit', pairs).functions}: taken as changed by {pairs}")
        except Unfit:
            pass
    if not wrong:
        print(f"wrong: its own test told controls, a wrong body and texts that cannot be tried apart, {trial.seconds:.0f} s", flush=True)
    return wrong


def read(words):
    """The bodies that are wanted, how many controls there are, and what is wrong with those bodies and controls that cannot be made."""
    wanted, good, controls, bad = [it.partition("/") for it in words], [], 0, []
    for path in sorted(glob.glob(f"{TOP}/tests/wrong/*/*") + glob.glob(f"{TOP}/tests/controls/*/*")):
        place, crate, file = path.split("/")[-3:]
        name = file.removesuffix(".edit")
        if wanted and not any(one == crate and two in ("", name) for one, _, two in wanted):
            continue
        try:
            if name == file or not os.path.isdir(f"{TOP}/crates/{crate}/src"):
                raise Unfit("it is no file NAME.edit in the folder of a crate")
            if place == "wrong":
                good.append(Body(crate, name, pairs_of(path)))
            else:
                controls += 1
                stands(crate, name, path)
        except Unfit as fault:
            bad.append(f"{crate}/{name}{'' if place == 'wrong' else ' (a control)'}: NOT TRIED: {fault}")
    return good, controls, bad


def fewer(bodies, most):
    """Of the bodies of each crate those that are feared, and others, by their names, up to so many."""
    feared = {line.split()[0] for line in text_of(f"{TOP}/tests/feared.txt").split("\n") if line and line[0] != "#"}
    kept, many = [], collections.Counter()
    for body in sorted(bodies, key=lambda it: (it.crate, f"{it.crate}/{it.name}" not in feared, it.name)):
        if many[body.crate] < most or f"{body.crate}/{body.name}" in feared:
            kept.append(body)
            many[body.crate] += 1
    return kept


def stands(crate, name, path):
    """Nothing, where a control is of a body that stands, and can be made."""
    if not os.path.isfile(path_of(crate, name)):
        raise Unfit("there is no such wrong body")
    lemma = lemma_of(path)
    if not lemma:
        Body(crate, name, pairs_of(path))
    elif f"pub {lemma[1]} :" not in text_of(f"{TOP}/crates/{crate}/{lemma[2]}"):
        raise Unfit(f"there is no lemma {lemma[1]} in {lemma[2]}")


def tell(name, bodies, seconds, earlier):
    """Prints what the bodies of a crate came to, and how many of them an earlier trial saw refused, and gives how many were not refused."""
    lost = sum(bool(fault) for _, _, fault in bodies)
    text = "".join(f"wrong: {it.crate}/{it.name}: {fault or 'refused: ' + line[:160]}\n" for it, line, fault in bodies)
    # (in one piece, beside what other tests print)
    seen = f", {earlier} of them by an earlier trial of the same files" if earlier else ""
    print(f"{text}wrong: {name}: {len(bodies) - lost} of {len(bodies)} refused{seen}, {seconds:.0f} s of a processor", flush=True)
    return lost


def main():
    parser = argparse.ArgumentParser(description=__doc__, formatter_class=argparse.RawDescriptionHelpFormatter)
    parser.add_argument("--jobs", type=int, default=len(os.sched_getaffinity(0)))
    parser.add_argument("--anew", action="store_true")
    parser.add_argument("--texts", action="store_true")
    parser.add_argument("--most", type=int, metavar="N")
    parser.add_argument("crates", nargs="*")
    given = parser.parse_args()
    good, controls, bad = read(given.crates)
    for line in bad:
        print(f"wrong: {line}")
    if given.texts or not good:
        print(f"wrong: {len(good)} bodies, {controls} controls, {len(bad)} that cannot be made")
        return 1 if bad or not good else 0
    good = good if given.most is None else fewer(good, given.most)
    os.chdir(TOP)
    rtlib = kit()
    rtlib.guarded()
    crates = {it.name: it for it in rtlib.crates_below(f"{TOP}/crates")}
    for low in [low for low in crates.values() if any(low in crates[body.crate].below() for body in good) and not low.is_built()]:
        print(f"wrong: the library {low.name} does not stand, of the text as it is: it is proved first", flush=True)
        if low.build_rlib(["--jobs", "1"], anew=False):
            sys.exit(f"wrong: {low.name} is not proved")
    refusals = Refusals(rtlib, crates)
    earlier = {} if given.anew else {body: line for body in good if (line := refusals.line(body))}
    names = [it for it in crates if any(body.crate == it for body in good)]
    left = lambda name: [body for body in good if body.crate == name and body not in earlier]
    lists = [(name, Trial(crates[name], rtlib), it) for name in names for it in batches(left(name))]
    with ThreadPoolExecutor(given.jobs) as pool:
        test = pool.submit(tests_itself, rtlib, crates)
        # (the largest first, so that none is left alone at the end)
        runs = {id(it): pool.submit(it[1].told, it[2]) for it in sorted(lists, key=lambda it: -it[1].crate.count(rb"\n"))}
        wrong = test.result()
        for line in wrong:
            print(f"wrong: its own test FAILED: {line}", flush=True)
        lost, refused = len(bad) + len(wrong), {}
        for name in names:
            own = [it for it in lists if it[0] == name]
            before = [(body, line, "") for body, line in earlier.items() if body.crate == name]
            found = [told for it in own for told in runs[id(it)].result()]
            refused.update({body: line for body, line, fault in found if not fault})
            lost += tell(name, before + found, sum(it[1].seconds for it in own), len(before))
    if not wrong:
        refusals.keep(refused)
    print(f"wrong: {len(good)} bodies, {lost} faults")
    return 1 if lost else 0


if __name__ == "__main__":
    sys.exit(main())
