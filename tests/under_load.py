#!/usr/bin/env python3
"""Runs each program and each crate's tests, as `rt ci` built them here, again and again beside processes that spin, and holds what they
tell against their stored output.

    tests/under_load.py [--times N] [--spinners N] [--minutes N] [NAME..]

50 times beside 8 spinners unless told otherwise; each program, and each crate's tests, no longer than so many minutes, ten unless told otherwise:
then it is told how often they ran. Ends with 1 where one run differed, or did not end in the gate's time, or where fewer runs were made."""
import argparse
import subprocess
import sys
import tempfile
import time
from pathlib import Path

TOP = Path(__file__).resolve().parents[1]
PROGRAM_SECONDS, TEST_SECONDS = 120, 60


def text(crate, name):
    path = crate / name
    return path.read_bytes() if path.is_file() else b""


def ran(words, folder, given, seconds):
    try:
        done = subprocess.run(words, cwd=folder, input=given, capture_output=True, timeout=seconds)
    except subprocess.TimeoutExpired:
        return "not ended", b""
    return done.returncode, done.stdout


def differs_in(crate, program, is_test, runner):
    """What a run of a program, or of tests, differs in from what is stored; nothing where it does not."""
    with tempfile.TemporaryDirectory() as folder:
        if is_test:
            status, out = ran([runner, "--seconds", str(TEST_SECONDS), program], folder, b"", None)
            return "" if status == 0 else f"status {status}: {out[-300:].decode(errors='replace')}"
        data = crate / "data"
        words = [program] + text(crate, "args").decode().splitlines()
        status, out = ran(words, data if data.is_dir() else folder, text(crate, "stdin"), PROGRAM_SECONDS)
    wanted = int(text(crate, "status") or b"0")
    if (status, out) == (wanted, text(crate, "stdout")):
        return ""
    told = [f"{a!r} for {b!r}" for a, b in zip(out.splitlines(), text(crate, "stdout").splitlines()) if a != b]
    return f"status {status}: {'; '.join(told[:3])}"


def built(names):
    """Each program and each crate's tests that stand built."""
    for crate in sorted((TOP / "crates").iterdir()):
        for kind in ("", ".by-rattle", "_tests"):
            program = crate / "out" / (crate.name + kind)
            if program.is_file() and (not names or crate.name in names):
                yield crate, str(program), kind == "_tests"


def ran_often(crate, program, is_test, runner, given):
    """How often a program, or tests, ran, and what differed in these runs."""
    began, many, wrong = time.time(), 0, []
    while many < given.times and time.time() - began < 60 * given.minutes:
        many += 1
        if told := differs_in(crate, program, is_test, runner):
            wrong.append(told)
    cut = "" if many == given.times else f", {given.times} were wanted"
    print(f"{Path(program).name}: {many - len(wrong)} of {many} as stored, {time.time() - began:.0f} s{cut}", flush=True)
    for told in dict.fromkeys(wrong):
        print(f"    {told}", flush=True)
    return many, len(wrong)


def main():
    parser = argparse.ArgumentParser(description=__doc__)
    parser.add_argument("--times", type=int, default=50)
    parser.add_argument("--spinners", type=int, default=8)
    parser.add_argument("--minutes", type=float, default=10)
    parser.add_argument("names", nargs="*")
    given = parser.parse_args()
    kit = Path(subprocess.run(["rt", "doc"], capture_output=True, text=True, check=True).stdout.split()[-1]).parent
    found = list(built(given.names))
    if not found:
        sys.exit("under_load.py: nothing stands built: run rt ci first")
    spinners = [subprocess.Popen([sys.executable, "-c", "while True: pass"]) for _ in range(given.spinners)]
    failed = 0
    try:
        for crate, program, is_test in found:
            many, wrong = ran_often(crate, program, is_test, str(kit / "bin/rattle-test"), given)
            failed += wrong + (many < given.times)
    finally:
        for it in spinners:
            it.kill()
    return 1 if failed else 0


if __name__ == "__main__":
    sys.exit(main())
