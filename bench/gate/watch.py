#!/usr/bin/env python3
"""Runs a command that calls rt ci, and tells what each part of the gate took.

    watch.py FOLDER WORD..

Twice a second it walks what the command has started, by /proc. A job is a child of rt with all that it starts: a check of a
crate, of its tests, of an edit, a link, or a run of a program; which of these, its command line and its folder tell. What a
job took is the processor time of its living processes with that of the ended ones that they waited for. What it took after
the last look is told by its parent, which waited for it: the kernel adds a child's time to its parent's when the child is
waited for. So the parts add up to the whole but for rt itself and for what lived less than one look.

FOLDER/ci.log gets the command's output while it runs, FOLDER/jobs.tsv a line for each job, FOLDER/table.md the table.
Ends with the command's status.
"""
import os
import re
import signal
import subprocess
import sys
import time

TICK = os.sysconf("SC_CLK_TCK")
PAUSE = 0.5
KINDS = ("proof", "tests", "edits", "run")


def read(path):
    """The text of a file of /proc; nothing where the process has ended or is not ours."""
    try:
        with open(path, "rb") as it:
            return it.read().decode(errors="replace")
    except OSError:
        return ""


class Process:
    """What one look tells of a process: its parent, its own seconds, and those of the children that it waited for."""

    def __init__(self, pid, stat):
        self.pid = pid
        fields = stat[stat.rindex(")") + 2 :].split()
        self.parent = int(fields[1])
        own, waited = [int(it) / TICK for it in fields[11:13]], [int(it) / TICK for it in fields[13:15]]
        self.waited = sum(waited)
        self.seconds = sum(own) + self.waited
        self.began = int(fields[19])


def processes():
    """All processes, by their numbers."""
    found = {}
    for name in os.listdir("/proc"):
        if name.isdigit():
            stat = read(f"/proc/{name}/stat")
            if stat:
                found[int(name)] = Process(int(name), stat)
    return found


def below(found):
    """The numbers of each process's children."""
    children = {}
    for it in found.values():
        children.setdefault(it.parent, []).append(it.pid)
    return children


def tree(pid, children):
    """A process and all below it."""
    whole, left = [], [pid]
    while left:
        pid = left.pop()
        whole.append(pid)
        left += children.get(pid, [])
    return whole


def most_bytes(pid):
    """The most memory that a process has held, in bytes."""
    found = re.search(r"^VmHWM:\s+(\d+) kB", read(f"/proc/{pid}/status"), re.M)
    return 1024 * int(found[1]) if found else 0


def part_of(pid):
    """The crate and the kind of a job, by its words and its folder; None where it is no part of the gate, or not yet to be told."""
    words = read(f"/proc/{pid}/cmdline").split("\0")
    try:
        folder = os.readlink(f"/proc/{pid}/cwd")
    except OSError:
        folder = ""
    if "--crate-name" in words[:-1]:
        crate = words[words.index("--crate-name") + 1]
        if "/rt-edit-" in folder or "/wrong-" in folder:
            return crate, "edits"
        return crate, "tests" if "--test" in words else "proof"
    for word in words:
        # a link, or the run of what was linked
        made = re.search(r"(?:^|/)out/(\w+?)(_tests)?(\.\w+)*$", word)
        if made and any("rattle-link" in it for it in words):
            crate = made[1]
            return crate, "tests" if made[2] else "proof"
        if made:
            return made[1], "run"
    at = re.search(r"/crates/(\w+)$", folder)
    return (at[1], "proof") if at else None


class Job:
    """What is known of a job."""

    def __init__(self, now):
        self.from_, self.upto, self.part, self.seconds, self.bytes = now, now, None, 0.0, 0

    def look(self, now, pids, found, top):
        self.upto = now
        self.part = part_of(top) or self.part
        self.seconds = max(self.seconds, sum(found[it].seconds for it in pids))
        self.bytes = max([self.bytes, *map(most_bytes, pids)])


class Watch:
    """The jobs of one run of rt."""

    def __init__(self, pid):
        self.pid, self.jobs, self.live, self.waited, self.began = pid, [], {}, 0.0, time.monotonic()

    def look(self):
        """Looks at all that lives, and gives jobs that have ended what their parent tells of them."""
        found = processes()
        if self.pid not in found:
            return
        now, children = time.monotonic() - self.began, below(found)
        ended = dict(self.live)
        for pid in children.get(self.pid, []):
            key = pid, found[pid].began
            if key not in self.live:
                self.live[key] = Job(now)
                self.jobs.append(self.live[key])
            ended.pop(key, None)
            self.live[key].look(now, tree(pid, children), found, pid)
        self.end(ended, found[self.pid].waited)

    def end(self, ended, waited):
        """Shares what the parent was told since the last look, less what was seen of the ended jobs, among these."""
        more = waited - self.waited - sum(it.seconds for it in ended.values())
        parts = [it for it in ended.values() if it.part]
        for it in parts:
            it.seconds += max(more, 0.0) / len(parts)
        for key in ended:
            del self.live[key]
        self.waited = waited


def number(seconds):
    """Seconds as the table has them; nothing where there are none."""
    return f"{seconds:,.0f}" if seconds >= 0.5 else ""


def row(cells):
    return f"| {' | '.join(cells)} |\n"


def table(jobs, cpu, wall, most, status, crates):
    """The table of a run, as Markdown."""
    sums, tops, edits = {}, {}, {}
    for it in jobs:
        if it.part:
            crate, kind = it.part
            sums[crate, kind] = sums.get((crate, kind), 0.0) + it.seconds
            tops[crate] = max(tops.get(crate, 0), it.bytes)
            edits[crate] = edits.get(crate, 0) + (kind == "edits")
    names = [it for it in crates if it in tops] + sorted({*tops} - {*crates})
    text = row(["Crate", "proof", "tests", "wrong bodies", "their checks", "runs", "together", "GB"])
    text += row(["---"] * 8)
    for crate in names:
        proof, tests, wrong, run = (sums.get((crate, it), 0.0) for it in KINDS)
        many = str(edits[crate]) if edits[crate] else ""
        cells = [number(proof), number(tests), number(wrong), many, number(run), number(proof + tests + wrong + run)]
        text += row([crate, *cells, f"{tops[crate] / 1e9:.1f}"])
    proof, tests, wrong, run = (sum(it for (_, what), it in sums.items() if what == kind) for kind in KINDS)
    together = proof + tests + wrong + run
    text += row(["together", number(proof), number(tests), number(wrong), str(sum(edits.values())), number(run), number(together), ""])
    text += row(["rt itself, and what was not seen", "", "", "", "", "", number(cpu - together), ""])
    text += row(["**the whole**", "", "", "", "", "", f"**{cpu:,.0f}**", f"**{most / 1e9:.1f}**"])
    text += f"\n(processor seconds, user and system; the greatest memory of one process)\n\n{cpu / 60:.1f} minutes of processor time, "
    text += f"{wall / 60:.1f} minutes of wall time on {len(os.sched_getaffinity(0))} processors, status {status}.\n"
    return text


def crates_in_order():
    """The crates in the order of crates.txt."""
    with open("crates.txt", encoding="utf-8") as it:
        return [line.split(":")[0].split()[0] for line in it if ":" in line and not line.startswith("#")]


def main(folder, words):
    # (lines reach the log when they are printed)
    how = {"env": {**os.environ, "PYTHONUNBUFFERED": "1"}, "stdin": subprocess.DEVNULL, "stderr": subprocess.STDOUT}
    with open(f"{folder}/ci.log", "wb") as log:
        ran = subprocess.Popen(words, stdout=log, **how)
    for it in (signal.SIGINT, signal.SIGTERM, signal.SIGHUP):
        # rt ends what it started when it ends
        signal.signal(it, lambda *_: ran.terminate())
    watch = Watch(ran.pid)
    while True:
        # (left to be waited for until the last look, so that its own sums are still there)
        ended = os.waitid(os.P_PID, ran.pid, os.WEXITED | os.WNOHANG | os.WNOWAIT)
        watch.look()
        if ended:
            break
        time.sleep(PAUSE)
    wall = time.monotonic() - watch.began
    _, status, used = os.wait4(ran.pid, 0)
    code = os.waitstatus_to_exitcode(status)
    with open(f"{folder}/jobs.tsv", "w", encoding="utf-8") as it:
        it.write("crate\tkind\tfrom\tupto\tseconds\tMB\n")
        for job in watch.jobs:
            crate, kind = job.part or ("", "")
            if job.part or job.seconds >= 0.5:
                it.write(f"{crate}\t{kind}\t{job.from_:.1f}\t{job.upto:.1f}\t{job.seconds:.2f}\t{job.bytes / 1e6:.0f}\n")
    most = max([1024 * used.ru_maxrss, *(it.bytes for it in watch.jobs)])
    text = table(watch.jobs, used.ru_utime + used.ru_stime, wall, most, code, crates_in_order())
    with open(f"{folder}/table.md", "w", encoding="utf-8") as it:
        it.write(text)
    return code if code >= 0 else 128 - code


if __name__ == "__main__":
    sys.exit(main(sys.argv[1], sys.argv[2:]))
