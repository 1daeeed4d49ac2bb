#!/usr/bin/env python3
"""times.py PROGRAM PEER TABLE SCRIPT [ROUNDS [WORD..]]
Runs a program of this folder (replies or updates) and the C++ peer in crack mode by turns over one script, compares both outputs, and
prints the seconds that the calls took (wall, medians and the least) and the processor seconds of each side: user and system of the whole
process, less those of a run over an empty script. Processor seconds do not depend on who else is there but for caches. The words stand
before both commands, as chrt -f 10. PROGRAM may be several, with commas between them: each is run in each turn."""
import os, resource, statistics, subprocess, sys, tempfile
programs, peer, table, script = sys.argv[1].split(","), sys.argv[2], sys.argv[3], sys.argv[4]
rounds = int(sys.argv[5]) if len(sys.argv) > 5 else 5
before = sys.argv[6:]
def ran(words):
    start = resource.getrusage(resource.RUSAGE_CHILDREN)
    done = subprocess.run(before + words, capture_output=True)
    end = resource.getrusage(resource.RUSAGE_CHILDREN)
    assert done.returncode == 0, (words, done.returncode, done.stderr)
    told = done.stderr.decode().split()
    wall = float(told[1]) if "." in told[1] else int(told[1]) / 1e9
    return done.stdout, wall, end.ru_utime - start.ru_utime + end.ru_stime - start.ru_stime
with tempfile.NamedTemporaryFile("w", suffix=".txt") as empty:
    sides = [[one, table] for one in programs] + [[peer, "crack", table]]
    idle = [[] for _ in sides]; walls = [[] for _ in sides]; cpus = [[] for _ in sides]
    for _ in range(rounds):
        texts = set()
        for k, side in enumerate(sides):
            idle[k].append(ran(side + [empty.name])[2])
            text, wall, cpu = ran(side + [script])
            texts.add(text); walls[k].append(wall); cpus[k].append(cpu)
        assert len(texts) == 1, "outputs differ"
name = os.path.basename(os.path.dirname(script))
peer_wall, peer_least = statistics.median(walls[-1]), min(walls[-1])
peer_cpu = min(cpus[-1]) - min(idle[-1])
for k, side in enumerate(sides):
    cpu = min(cpus[k]) - min(idle[k])
    print(f"{name:>13} {os.path.basename(side[0]):>12}: wall {statistics.median(walls[k]):.3f} s (least {min(walls[k]):.3f}), processor {cpu:.3f} s; "
          f"to the peer {statistics.median(walls[k]) / peer_wall:.2f} (least {min(walls[k]) / peer_least:.2f}), processor {cpu / peer_cpu:.2f}", flush=True)
