#!/usr/bin/env python3
"""A file system that fills up: small ones in memory (tmpfs), which this driver mounts, with so many pages left. Histories, and outputs, of
lengths round the one that still fits are written there. What fits is there whole. Where it does not fit, the run ends with status 3 and
`refused 13`: of an output just the bytes that fitted are there; of a history nothing is, or the one that stood there, and no file beside it.
Then: a history in place of one that stands there, an output and a history side by side, lines on standard error, a file system that takes no
file more, and the same run when there is room again. It needs the right to mount: as root, or by `unshare -rm python3 tests/hostile/full.py`.
Ends with 1 and the first case that is wrong; with 2, and nothing tried, where it may not mount."""
import contextlib, signal, subprocess, sys, tempfile, time
from collections import Counter
from pathlib import Path
from histories import check
from model import run
from running import bytes_of, ended, options, told, without_words, wrong

PAGE = 4096
NO_OUTPUT = "sideways: refused 13\n"
TABLE = b"a:int,b:int\n1111111111111111111,17\n"
RUN = ["run", "--table", "t.csv", "--script", "s.txt"]

# How many bytes more than fit there are: fewer, just as many, or too many.
MORE = (-PAGE, -1, 0, 1, 2, 100, PAGE - 1, PAGE, PAGE + 1, 3 * PAGE)

# The KiB of a file system, and how many of its pages are left. A source or sink of the program has 64 KiB at a time.
LEFT = [(64, pages) for pages in range(17)] + [(256, pages) for pages in (17, 31, 32, 33, 48, 63, 64)]


class NoMount(Exception):
    pass


@contextlib.contextmanager
def disk(kib, more=""):
    """The folder of a file system of so many KiB, while it lasts."""
    folder = Path(tempfile.mkdtemp(prefix="full."))
    try:
        try:
            done = subprocess.run(["mount", "-t", "tmpfs", "-o", "size=%dk%s" % (kib, more), "tmpfs", str(folder)], capture_output=True)
        except FileNotFoundError:
            raise NoMount("there is no command mount")
        if done.returncode:
            raise NoMount(done.stderr.decode().strip())
        try:
            yield folder
        finally:
            if subprocess.run(["umount", str(folder)], capture_output=True).returncode:
                subprocess.run(["umount", "-l", str(folder)], check=True)
    finally:
        folder.rmdir()


def printing(size):
    """A script whose output has so many bytes, and what a run of it gives; None where there is none."""
    lines, rest = [], size
    while rest > 21:
        lines.append(b"max a\n")
        rest -= 20
    if rest % 2 and rest > 2:
        lines.append(b"max b\n")
        rest -= 3
    script = b"".join(lines) + b"count\n" * (rest // 2)
    made = run(TABLE, script)
    return (script, made) if len(made[1]) == size else None


def recording(size):
    """A script whose history has so many bytes, and what a run of it gives; None where there is none."""
    none, one, two = (len(run(TABLE, b"delete 9\n" * many)[3]) for many in range(3))
    for many in ((size - one) // (two - one + 17), (size - one) // (two - one + 17) + 1):
        # The first so many deletes, and then some more of up to 17 digits more each.
        spare = size - one - many * (two - one)
        if many < 0 or spare < 0 or spare > 17 * (many + 1):
            continue
        digits = [min(17, max(0, spare - 17 * place)) for place in range(many + 1)]
        script = b"".join(b"delete 9" + b"9" * more + b"\n" for more in digits)
        made = run(TABLE, script)
        if len(made[3]) != size:
            raise AssertionError("a history of %d bytes has %d" % (size, len(made[3])))
        return script, made
    return (b"", run(TABLE, b"")) if size == none else None


class Full:
    def __init__(self, program):
        self.program, self.home, self.counts = program, tempfile.TemporaryDirectory(), Counter()
        self.folder = Path(self.home.name)
        self.put("t.csv", TABLE)

    def put(self, name, data):
        (self.folder / name).write_bytes(data)

    def held(self, name, script, words, expected, got):
        if got != expected:
            wrong(name, {"t.csv": TABLE, "s.txt": script}, words, shown(expected), shown(got))

    def fill(self, folder, kib, pages):
        """Leaves so many pages of a file system."""
        (folder / "filler").write_bytes(b"x" * (kib * 1024 - pages * PAGE))

    def made(self, name, script, words, out=None, fault=None):
        """A run; its output and its lines go into files where these are given. What is told, where it does not."""
        self.put("s.txt", script)
        with contextlib.ExitStack() as files:
            streams = [files.enter_context(open(path, "wb")) if path else subprocess.PIPE for path in (out, fault)]
            done = subprocess.run([self.program] + words, cwd=self.folder, stdin=subprocess.DEVNULL, stdout=streams[0], stderr=streams[1],
                                  timeout=300)
        self.counts[name, done.returncode] += 1
        return (done.returncode, None if out else done.stdout.decode(errors="replace"), None if fault else without_words(done.stderr.decode(errors="replace")))

    def checked(self, script, path, history):
        """Checks a history that stands there."""
        self.held("the check", script, ["check", path.name], check(history), told(self.program, ["check", str(path)], self.folder))

    # A history

    def histories(self):
        for kib, pages in LEFT:
            with disk(kib) as folder:
                self.fill(folder, kib, pages)
                for more in MORE:
                    made = recording(pages * PAGE + more)
                    if made:
                        self.history(folder, "a history, %d pages left, %+d bytes" % (pages, more), pages * PAGE, *made)

    def history(self, folder, name, room, script, made):
        """A history is written where there is room for so many bytes."""
        kept, words = folder / "kept.json", RUN + ["--history", str(folder / "kept.json")]
        _, out, _, history = made
        got, fits = self.made("a history", script, words), len(history) <= room
        self.held(name, script, words, (0, out, "") if fits else (3, out, NO_OUTPUT), got)
        self.held(name + ": what stands", script, words, history if fits else None, bytes_of(kept))
        self.held(name + ": the files", script, words, ["filler"] + ["kept.json"] * fits, sorted(path.name for path in folder.iterdir()))
        if fits:
            self.checked(script, kept, history)
            kept.unlink()

    # The output

    def outputs(self):
        """An output that does not fit; then no history is written."""
        for kib, pages in LEFT:
            with disk(kib) as folder:
                self.fill(folder, kib, pages)
                for more in MORE:
                    made = printing(pages * PAGE + more) if pages * PAGE + more >= 0 else None
                    if made:
                        self.output(folder, "an output, %d pages left, %+d bytes" % (pages, more), pages * PAGE, *made)

    def output(self, folder, name, room, script, made):
        out, kept, words = folder / "out", self.folder / "kept.json", RUN + ["--history", "kept.json"]
        fits = len(made[1]) <= room
        got = self.made("an output", script, words, out)
        self.held(name, script, words, (0, None, "") if fits else (3, None, NO_OUTPUT), got)
        self.held(name + ": what stands", script, words, made[1].encode()[:room], out.read_bytes())
        self.held(name + ": the history", script, words, made[3] if fits else None, kept.read_bytes() if kept.exists() else None)
        kept.unlink(missing_ok=True)
        out.unlink()

    # Others

    def others(self):
        """A history in place of one that stands there; an output and a history; lines on standard error; and room again."""
        with disk(64) as folder:
            # The one that stands there and the new one are there side by side.
            self.fill(folder, 64, 4)
            kept, words, stands = folder / "kept.json", RUN + ["--history", str(folder / "kept.json")], b""
            for size in (2 * PAGE, 2 * PAGE, 2 * PAGE + 1, PAGE, 3 * PAGE, 2 * PAGE):
                script, (_, lines, _, history) = recording(size)
                fits = -(-size // PAGE) + -(-len(stands) // PAGE) <= 4
                expected = (0, lines, "") if fits else (3, lines, NO_OUTPUT)
                self.held("in place of another", script, words, expected, self.made("in place of another", script, words))
                stands = history if fits else stands
                self.held("what stands in its place", script, words, stands, kept.read_bytes())
                self.held("the files there", script, words, ["filler", "kept.json"], sorted(path.name for path in folder.iterdir()))
                self.checked(script, kept, stands)
        with disk(64) as folder:
            self.fill(folder, 64, 2)
            kept, out, words = folder / "kept.json", folder / "out", RUN + ["--history", str(folder / "kept.json")]
            for size in (PAGE, PAGE + 1, 2 * PAGE, 2 * PAGE + 1):
                script, (_, lines, _, history) = recording(size)
                if not 0 < len(lines) <= PAGE:
                    raise AssertionError("an output of %d bytes" % len(lines))
                got = self.made("an output and a history", script, words, out)
                self.held("an output and a history", script, words, (0, None, "") if size <= PAGE else (3, None, NO_OUTPUT), got)
                self.held("this output", script, words, lines.encode(), out.read_bytes())
                self.held("its history", script, words, history if size <= PAGE else None, bytes_of(kept))
                kept.unlink(missing_ok=True)
                out.unlink()
        with disk(64) as folder:
            self.fill(folder, 64, 0)
            kept, words = folder / "kept.json", RUN + ["--history", str(folder / "kept.json")]
            script, (_, lines, _, history) = recording(2 * PAGE)
            self.put("h.json", history)
            tries = ((words, folder / "out", None), (words, None, folder / "err"), (words, folder / "out", folder / "err"),
                     (RUN + ["--stats"], None, folder / "err"), (["check", "h.json"], folder / "out", None), (["--help"], folder / "out", None),
                     (["explain"], folder / "out", folder / "err"))
            for tried, out, err in tries:
                got = self.made("nothing fits", script, tried, out, err)
                self.held("nothing fits", script, tried, (3, None if out else lines, None if err else NO_OUTPUT), got)
                self.held("the bytes there", script, tried, 0, sum(path.stat().st_size for path in folder.iterdir() if path.name != "filler"))
            (folder / "filler").unlink()
            self.held("room again", script, words, (0, lines, ""), self.made("room again", script, words))
            self.held("the history with room again", script, words, history, kept.read_bytes())
            self.checked(script, kept, history)
        for files in (1, 2):
            with disk(64, ",nr_inodes=%d" % files) as folder:
                words = RUN + ["--history", str(folder / "kept.json")]
                expected = (3, lines, NO_OUTPUT) if files == 1 else (0, lines, "")
                self.held("a file more", script, words, expected, self.made("a file more", script, words))
                self.held("the files", script, words, ["kept.json"] * (files - 1), [path.name for path in folder.iterdir()])
        self.held("the table after all this", script, [], TABLE, (self.folder / "t.csv").read_bytes())


def shown(what):
    """The beginning of what is long."""
    if isinstance(what, tuple):
        return tuple(shown(one) for one in what)
    return "%r.. (%d)" % (what[:100], len(what)) if isinstance(what, (str, bytes)) and len(what) > 200 else what


def main():
    signal.signal(signal.SIGTERM, lambda *_: sys.exit(2))
    full, began = Full(options(__doc__).program), time.time()
    for what in (full.histories, full.outputs, full.others):
        what()
    for name in dict.fromkeys(name for name, _ in full.counts):
        statuses = sorted(status for kind, status in full.counts if kind == name)
        print("%s: %s as expected" % (name, ", ".join("%d with status %d" % (full.counts[name, status], status) for status in statuses)))
    print("%d cases in %.0f s" % (sum(full.counts.values()), time.time() - began))


if __name__ == "__main__":
    try:
        ended(main)
    except NoMount as refused:
        print("no file system was mounted, and nothing tried: %s" % refused)
        sys.exit(2)
