#!/usr/bin/env python3
"""What is left after each end of the program: a history file is the old one or the new one, a history is never written over
another file of its run, a limit of file sizes is a refusal, little room and small stacks end nothing, lines go out as calls are answered,
and an answer that is not proved says so.

    tests/ends.py [--program PATH]

PATH is the built program, by default crates/sideways/out/sideways, where `rt ci` and `./sideways prove` leave it. Ends with 1
at the first case that is wrong, which it shows; its last line tells how many cases there were."""
import argparse, os, resource, signal, shutil, subprocess, sys, tempfile, time
from pathlib import Path

TOP = Path(__file__).resolve().parents[1]
TABLE = b"a:int,b:int,c:int\n12,7,1\n3,8,0\n12,5,1\n20,2,0\n"
SCRIPT = b"count\nselect b where a >= 10\n"
OUT = b"4\n1: 7\n3: 5\n4: 2\n(3 rows)\n"
OLD = b"what stood there"
VALUES = b"name,n\n%s,2\nb,3\n" % (b"long" * 20)
LOG = b"session,start,end,call,reply\n1,0,1,count,4\n"
NO_OUTPUT = b"sideways: refused 13\n"
KILLS, MEMORIES, EARLY_CALLS, ROOM = 150, 40, 2000, 2048


def unwritten(name, why="it cannot be written"):
    """What is told where this cannot be written."""
    return NO_OUTPUT + ("%s: %s\n" % (name, why)).encode()


class Wrong(Exception):
    pass


class Ends:
    def __init__(self, program, folder):
        self.program, self.folder, self.cases = str(program), Path(folder), 0
        self.put("t.csv", TABLE)
        self.put("s.txt", SCRIPT)
        self.run = ["run", "--table", "t.csv", "--script", "s.txt"]
        self.history = self.kept_by(self.run)

    def put(self, name, data):
        (self.folder / name).write_bytes(data)

    def bytes_of(self, name):
        path = self.folder / name
        return path.read_bytes() if path.exists() else None

    def call(self, words, program=None, **more):
        more.setdefault("stdout", subprocess.PIPE)
        more.setdefault("stderr", subprocess.PIPE)
        more.setdefault("stdin", subprocess.DEVNULL)
        done = subprocess.run([program or self.program] + words, cwd=self.folder, timeout=60, **more)
        return done.returncode, done.stdout, done.stderr

    def kept_by(self, words):
        """The history that a run keeps where nothing is in its way."""
        self.held("a run that keeps its history", 0, self.call(words + ["--history", "first.json"])[0])
        return self.take("first.json")

    def take(self, name):
        data = self.bytes_of(name)
        (self.folder / name).unlink(missing_ok=True)
        return data

    def held(self, name, expected, got):
        self.cases += 1
        if got != expected:
            raise Wrong("WRONG: %s\n  expected %r\n  got      %r" % (name, expected, got))

    def begun(self):
        """What stands beside a history that was not ended. It is taken away."""
        found = sorted(self.folder.glob("*.part"))
        for path in found:
            path.unlink()
        return [path.name for path in found]

    # A history file is the old one or the new one

    def killed_runs(self):
        """A run is killed at moments from its beginning to its end, and the last one is not. At some of them what is begun stands beside the history."""
        self.put("long.txt", SCRIPT * 6000)
        words = ["run", "--table", "t.csv", "--script", "long.txt", "--history", "h.json"]
        began = time.time()
        status, whole, _ = self.call(words)
        self.held("a long run", 0, status)
        lasts, new, beside, kinds = time.time() - began, self.take("h.json"), 0, set()
        for at in range(KILLS):
            self.put("h.json", OLD)
            with open(self.folder / "out", "wb") as out:
                child = subprocess.Popen([self.program] + words, cwd=self.folder, stdout=out, stderr=subprocess.DEVNULL)
                try:
                    # (the last one ends, however slow the machine is by then)
                    child.wait(lasts * (0.2 + at / KILLS) if at + 1 < KILLS else None)
                except subprocess.TimeoutExpired:
                    child.kill()
                child.wait()
            kept, went = self.bytes_of("h.json"), self.bytes_of("out")
            kinds.add(kept)
            beside += len(self.begun())
            self.held("the history after a kill at %d of %d" % (at, KILLS), True, kept in (OLD, new))
            self.held("the replies before it", True, whole.startswith(went) and (kept == OLD or went == whole))
        self.held("both histories are left by some kills", {OLD, new}, kinds)
        print("  beside the history %d of %d kills left what was begun" % (beside, KILLS))

    def wanting_memory(self):
        """A run whose memory ends at some place: the history is the old one wherever the run is refused."""
        self.put("long.txt", SCRIPT * 3000)
        words = ["run", "--table", "t.csv", "--script", "long.txt", "--history", "h.json"]
        self.held("a run with its memory", 0, self.call(words)[0])
        new, refused = self.take("h.json"), 0
        for step in range(MEMORIES):
            # In 4 MiB the system cannot load the program, and ends it with status 127.
            most = (5 + step) << 20
            self.put("h.json", OLD)
            status, out, told = self.call(words, preexec_fn=lambda: resource.setrlimit(resource.RLIMIT_AS, (most, most)))
            # Under a call that was refused the history is another one, which is whole.
            answered = status == 0 or told == b""
            kept, lines = self.bytes_of("h.json"), out.split(b"\n")
            refused += not answered
            calls = sum(line in (b"4", b"(3 rows)", b"refused 1") for line in lines)
            self.held("the replies within %d MiB" % (most >> 20), True, calls == 6000 or (out == b"" and not answered))
            if answered:
                self.held("its status", 3 if b"refused 1" in lines else 0, status)
                self.held("a history within %d MiB" % (most >> 20), (0, b"legal"), self.verdict("h.json"))
            else:
                is_told = status == 3 and told.startswith(b"sideways: refused 1\n")
                self.held("what is told within %d MiB" % (most >> 20), True, is_told or (status == 127 and out == b""))
                self.held("the history within %d MiB" % (most >> 20), OLD, kept)
            self.held("what is begun within %d MiB" % (most >> 20), [], self.begun())
        self.held("the last one is the whole history", new, self.take("h.json"))
        self.held("some runs are refused", True, refused > 0)

    def refused_inputs(self):
        """What is refused before any call: nothing goes out, and the history that was there stands."""
        self.put("short.csv", b"a,b\n1,2\n3\n")
        self.put("word.txt", b"count\nfetch\n")
        table, script = ["--table", "t.csv"], ["--script", "s.txt"]
        for name, words, line in (("a command line", table + script + ["--fast"], b"error: "),
                                  ("a table", ["--table", "short.csv"] + script, b"sideways: refused 2 record 2 field 2\n"),
                                  ("a table that is not there", ["--table", "none.csv"] + script, b"sideways: refused 12\n"),
                                  ("a script", table + ["--script", "word.txt"], b"sideways: refused 3 line 2 why Word\n"),
                                  ("cuts", table + script + ["--cuts", "d=1"], b"sideways: refused 4 name d\n"),
                                  ("rows past the limit", table + script + ["--limit", "3"], b"sideways: refused 5 limit 3\n")):
            for more in ([], ["--threads"]):
                self.put("h.json", OLD)
                status, out, told = self.call(["run"] + words + more + ["--history", "h.json"])
                self.held("%s that is refused" % name, (2, b"", True), (status, out, told.startswith(line)))
                self.held("the history of a run that was refused", (OLD, []), (self.take("h.json"), self.begun()))

    def lost_replies(self):
        """Replies that cannot be written: the history that was there stands."""
        for more in ([], ["--threads"]):
            for why in ("it cannot be written", "its reader is gone"):
                reader, writer = os.pipe()
                os.close(reader)
                self.put("h.json", OLD)
                with open("/dev/full" if why.startswith("it ") else writer, "wb") as out:
                    got = self.call(self.run + more + ["--history", "h.json"], stdout=out)
                if why.startswith("it "):
                    os.close(writer)
                self.held("replies, %s" % why, (3, unwritten("standard output", why)), got[::2])
                self.held("the history of a run whose replies were lost", (OLD, []), (self.take("h.json"), self.begun()))

    def verdict(self, name):
        status, out, _ = self.call(["check", name])
        return status, out[:5]

    def few_bytes(self, most):
        """What has a program write at most so many bytes into a file, without the signal."""
        def limit():
            signal.signal(signal.SIGXFSZ, signal.SIG_IGN)
            resource.setrlimit(resource.RLIMIT_FSIZE, (most, resource.RLIM_INFINITY))
        return limit

    def full_disks(self):
        """A disk that is full after n bytes: the old history stands, or none, and nothing beside it."""
        for old in (OLD, None):
            for most in range(0, len(self.history) + 1):
                self.take("h.json")
                if old is not None:
                    self.put("h.json", old)
                got = self.call(self.run + ["--history", "h.json"], preexec_fn=self.few_bytes(most), restore_signals=False)
                whole = most >= len(self.history)
                expected = (0, OUT, b"") if whole else (3, OUT, unwritten("h.json"))
                self.held("a history of at most %d bytes" % most, (expected, self.history if whole else old, []),
                          (got, self.bytes_of("h.json"), self.begun()))

    def other_writers(self):
        """Every other file that a command writes: what was there stands where the disk is full, and nothing beside it."""
        self.put("v.csv", VALUES)
        self.put("l.csv", LOG)
        number = ["import", "v.csv", "--long", "number", "--dictionary", "f"]
        for name, words, lines in (("a log", self.run + ["--log", "f"], b""), ("a dictionary", number, b""),
                                   ("origins", ["order", "--table", "t.csv", "l.csv", "--where", "f"], b""),
                                   ("a shell's history", ["shell", "t.csv", "--history", "f"], b"count\n"),
                                   ("a history of a line", ["shell", "t.csv"], b".history f\ncount\n"),
                                   ("rows", ["shell", "t.csv"], b".write f\n")):
            for old in (OLD, None):
                for most in (0, 10, None):
                    self.take("f")
                    if old is not None:
                        self.put("f", old)
                    self.put("lines", lines)
                    limit = {} if most is None else {"preexec_fn": self.few_bytes(most), "restore_signals": False}
                    with open(self.folder / "lines", "rb") as given:
                        status, _, told = self.call(words, stdin=given, **limit)
                    refused = told.startswith(NO_OUTPUT)
                    self.held("%s of at most %s bytes" % (name, most), (0, False) if most is None else (3, True), (status, refused))
                    kept = self.bytes_of("f")
                    self.held("what stands there", True, kept not in (OLD, None) if most is None else kept == old)
                    self.held("beside %s" % name, [], self.begun())

    def in_place_of(self):
        """What a history may replace, and what stays of it."""
        words = self.run + ["--history"]
        self.put("h.json", OLD)
        (self.folder / "h.json").chmod(0o640)
        self.held("a history over another", (0, OUT, b""), self.call(words + ["h.json"]))
        self.held("it has the permissions of the other", 0o640, (self.folder / "h.json").stat().st_mode & 0o7777)
        self.held("it is whole", self.history, self.take("h.json"))
        self.put("real.json", OLD)
        (self.folder / "link.json").symlink_to("real.json")
        self.held("a history through a link", (0, OUT, b""), self.call(words + ["link.json"]))
        self.held("the link is one", True, (self.folder / "link.json").is_symlink())
        self.held("what it leads to is the history", self.history, self.take("real.json"))
        self.held("a link that leads nowhere", (0, OUT, b""), self.call(words + ["link.json"]))
        self.held("what it leads to now", self.history, self.take("real.json"))
        (self.folder / "link.json").unlink()
        self.put("sideways.1.part", OLD)
        self.held("a name that is taken", (0, OUT, b""), self.call(words + ["h.json"]))
        self.held("who took it keeps it", (OLD, self.history), (self.take("sideways.1.part"), self.take("h.json")))
        self.held("a device", (0, OUT, b""), self.call(words + ["/dev/null"]))
        self.held("a full device", (3, OUT, unwritten("/dev/full")), self.call(words + ["/dev/full"]))
        self.held("a folder that is none", (3, OUT, unwritten("none/h.json")), self.call(words + ["none/h.json"]))
        self.held("the folder itself", (3, OUT, unwritten(".", "a folder, wanted a file")), self.call(words + ["."]))
        self.held("nothing stands beside", [], self.begun())

    def may_not_write(self):
        """A history that may not be written is not replaced, though its folder may be."""
        self.put("h.json", OLD)
        (self.folder / "h.json").chmod(0o444)
        more = {"user": 65534, "group": 65534, "extra_groups": []} if os.getuid() == 0 else {}
        if more:
            self.folder.chmod(0o777)
            if self.call(["--help"], **more)[0] != 0:
                return
        self.held("a history that may not be written", (3, OUT, unwritten("h.json")), self.call(self.run + ["--history", "h.json"], **more))
        self.held("it stands", (OLD, []), (self.take("h.json"), self.begun()))

    # A history is no other file of its run

    def refused_words(self, name, got, over):
        """A command line that is refused: status 2, and clap's text on standard error."""
        status, _, told = got
        line = b"error: the history would be written over " + over
        self.held(name, (2, True), (status, told.startswith(line)))

    def other_files(self):
        """A history that is the table, the script, or where the replies or what is told go, by whatever name."""
        words = self.run + ["--history"]
        (self.folder / "hard.csv").hardlink_to(self.folder / "t.csv")
        (self.folder / "soft.txt").symlink_to("s.txt")
        for name, over in (("t.csv", b"the table"), ("./t.csv", b"the table"), ("hard.csv", b"the table"),
                           ("s.txt", b"the script"), ("soft.txt", b"the script"), (str(self.folder / "s.txt"), b"the script")):
            self.refused_words("a history that is %s" % name, self.call(words + [name]), over)
        for mode in ("wb", "ab"):
            for name in ("replies", "/dev/stdout", "/proc/self/fd/1"):
                self.put("replies", OLD)
                with open(self.folder / "replies", mode) as out:
                    self.refused_words("a history %s where the replies go" % name, self.call(words + [name], stdout=out), b"the replies")
                self.held("the replies' file", b"" if mode == "wb" else OLD, self.take("replies"))
        with open(self.folder / "told", "wb") as told:
            got = self.call(words + ["told"], stderr=told)
        self.held("a history where it is told", (2, True), (got[0], self.bytes_of("told").startswith(
            b"error: the history would be written over what is told on standard error\n")))
        with open(self.folder / "told", "wb") as told:
            got = self.call(self.run + ["--log", "told"], stderr=told)
        self.held("a log where it is told", (2, True), (got[0], self.bytes_of("told").startswith(
            b"error: the log would be written over what is told on standard error\n")))
        with open(self.folder / "t.csv", "rb") as table:
            got = self.call(["run", "--table", "/dev/stdin", "--script", "s.txt", "--history", "t.csv"], stdin=table)
            self.refused_words("a history that is the table of standard input", got, b"the table")
        self.held("table and script", (TABLE, SCRIPT), (self.bytes_of("t.csv"), self.bytes_of("s.txt")))
        for name in ("hard.csv", "soft.txt", "told"):
            (self.folder / name).unlink()
        self.held("a history into the pipe of the replies", (0, OUT + self.history, b""), self.call(words + ["/dev/stdout"]))
        self.held("replies and history to nothing", 0, self.call(words + ["/dev/null"], stdout=subprocess.DEVNULL)[0])

    def other_lists(self):
        """A dictionary, origins or rows that would be written over another file of their command, by whatever name."""
        self.put("v.csv", VALUES)
        self.put("l.csv", LOG)
        number, order = ["import", "v.csv", "--long", "number", "--dictionary"], ["order", "--table", "t.csv", "l.csv", "--where"]
        for words, over, name in ((number, b"the dictionary would be written over the values", "./v.csv"),
                                  (number, b"the dictionary would be written over the table", "out"),
                                  (order, b"the list of origins would be written over the table", "./t.csv"),
                                  (order, b"the list of origins would be written over a log", "./l.csv"),
                                  (order, b"the list of origins would be written over the history", "out")):
            with open(self.folder / "out", "wb") as out:
                status, _, told = self.call(words + [name], stdout=out)
            self.held("%s %s" % (words[-1], name), (2, True, b""), (status, told.startswith(b"error: " + over), self.take("out")))
        for command, over in ((b".write out", b"the rows would be written over the replies"),
                              (b".history out", b"the history would be written over the replies"),
                              (b".history ./t.csv", b"the history would be written over the table")):
            self.put("lines", b"count\n" + command + b"\ncount\n")
            with open(self.folder / "lines", "rb") as lines, open(self.folder / "out", "wb") as out:
                status, _, told = self.call(["shell", "t.csv"], stdin=lines, stdout=out)
            self.held("%s in a shell" % command, (2, b"sideways: line 2: " + over + b"\n", b"4\n4\n"), (status, told, self.take("out")))
        with open(self.folder / "out", "wb") as out:
            self.refused_words("a shell's history", self.call(["shell", "t.csv", "--history", "out"], stdout=out), b"the replies")
        self.held("values, table and log", (VALUES, TABLE, LOG), (self.bytes_of("v.csv"), self.bytes_of("t.csv"), self.bytes_of("l.csv")))

    # By ./sideways: limits that the program cannot mend

    def built(self):
        """A copy of ./sideways over the built program, which it takes for the one of its sources."""
        top = self.folder / "tree"
        made = top / "crates/sideways/out"
        made.mkdir(parents=True, exist_ok=True)
        shutil.copy(TOP / "sideways", top / "sideways")
        (top / "crates.txt").write_text("sideways: clap\n")
        (top / "HANDLES").write_bytes((TOP / "HANDLES").read_bytes())
        shutil.copy(self.program, made / "sideways")
        return str(top / "sideways")

    def size_limits(self):
        """A limit of file sizes, which would end the program by a signal: a refusal, for the replies and for the history."""
        script = self.built()
        self.put("long.txt", SCRIPT * 600)
        words = ["run", "--table", "t.csv", "--script", "long.txt"]
        limit = lambda: resource.setrlimit(resource.RLIMIT_FSIZE, (1024, 1024))
        with open(self.folder / "out", "wb") as out:
            self.held("replies of at most a KiB", (3, unwritten("standard output")), self.call(words, script, stdout=out, preexec_fn=limit)[::2])
        self.held("a beginning of the replies", (OUT * 600)[:1024], self.take("out"))
        self.put("h.json", OLD)
        got = self.call(words + ["--history", "h.json"], script, preexec_fn=limit)
        self.held("a history of at most a KiB", (3, OUT * 600, unwritten("h.json")), got)
        self.held("the history that was there", (OLD, []), (self.take("h.json"), self.begun()))

    def little_room(self):
        """Under limits of address space: where the system can load the program, and give it its stack at first, a run is refused or answered;
        no signal ends it later."""
        def within(kib):
            return self.call(self.run, preexec_fn=lambda: resource.setrlimit(resource.RLIMIT_AS, (kib << 10, kib << 10)))
        tried = {}
        for kib in range(1024, 65536, 4):
            tried[kib] = within(kib)[0]
            if tried[kib] in (0, 3):
                break
        begins, loads = kib, max((kib for kib in tried if tried[kib] == 127), default=kib)
        self.held("the stack that is taken at first is small", True, begins - loads <= 256)
        ended = {}
        for kib in range(begins + 32, begins + ROOM, 4):  # the system puts the stack now higher, now lower
            status, out, told = within(kib)
            self.held("a run within %d KiB" % kib, True, (status, out) == (0, OUT) or status == 3 and b"refused 1\n" in out + told)
            ended[status] = kib
        self.held("some are refused, and some answered", {0, 3}, set(ended))
        print("  the program is not loaded within %d KiB, begins within %d, and a run is refused up to %d" % (loads, begins, ended[3]))

    def small_stacks(self):
        """Small stacks end nothing: ./sideways lets them grow where it may, and where it may not blocks have no threads."""
        script = self.built()
        blocks = [b"count\nselect a, b where a >= %d\nsum b where c < %d\n" % (at, at) for at in range(6)]
        self.put("blocks.txt", b"---\n".join(blocks))
        self.put("many.csv", b"a,b,c\n" + b"".join(b"%d,%d,%d\n" % (at, at % 7, at % 11) for at in range(300_000)))
        self.put("many.txt", b"sum c where a >= 5 and a < 90000\nsum b where a >= 7\nsum a where b = 3\nsum b where a < 9\n" * 3)
        threads = ["run", "--table", "t.csv", "--script", "blocks.txt", "--threads"]
        parts = ["run", "--table", "many.csv", "--script", "many.txt"]
        ample = resource.RLIM_INFINITY
        tries = [(words, kib << 10, ample) for words in (threads, parts) for kib in (16, 32, 48, 64, 128, 256)]
        tries += [(words, kib << 10, kib << 10) for words in (threads, parts) for kib in (32, 64, 128, 256, 512)]
        expected = {tuple(words): self.call(words) for words in (threads, parts)}
        for words, soft, hard in tries:
            got = self.call(words, script, preexec_fn=lambda: resource.setrlimit(resource.RLIMIT_STACK, (soft, hard)))
            answered = max(soft, hard) >= 256 << 10 or hard == ample
            wanted = expected[tuple(words)] if answered else (3, b"", b"sideways: refused 1\n")
            self.held("%s with stacks of %d KiB" % (words[4], soft >> 10), wanted, got)
        self.held("both were answered", [0, 0], [got[0] for got in expected.values()])

    # Lines that go out as calls are answered

    def spent(self, words, lines=None):
        """A run whose reader takes so many lines, or all: its status, what was told, how many bytes went out, and the most KiB of memory."""
        child = [sys.executable, "-S", "-c", MEASURED, str(self.folder / "memory"), self.program] + words
        with open(self.folder / "told", "wb") as told:
            run = subprocess.Popen(child, cwd=self.folder, stdin=subprocess.DEVNULL, stdout=subprocess.PIPE, stderr=told)
        parts = iter(lambda: run.stdout.read(1 << 16), b"") if lines is None else (run.stdout.readline() for _ in range(lines))
        taken = sum(len(part) for part in parts)
        run.stdout.close()
        return run.wait(), self.take("told"), taken, int(self.take("memory"))

    def early_lines(self):
        """A reader that takes one line ends a run at its first calls; and a run in turn keeps no second copy of its replies, nor their text.
        With threads lines go out when all calls are made, and replies stand twice: what that takes is what is held against."""
        self.put("rows.csv", b"a:text,b:text,c:text,d:text\n" + b"".join(b",".join([b"%064d" % at] * 4) + b"\n" for at in range(100)))
        words = ["run", "--table", "rows.csv", "--script", "rows.txt", "--quiet"]
        sides, grown, text, made = ([], ["--threads"]), [0, 0], 0, []
        for calls in (EARLY_CALLS, 2 * EARLY_CALLS):
            self.put("rows.txt", b"select a, b, c, d\n" * calls)
            for side, more in enumerate(sides):
                status, told, taken, most = self.spent(words + more)
                self.held("all lines", (0, b""), (status, told))
                grown[side] = most - grown[side]
            text = taken - text
        for more in sides:
            status, told, _, _ = self.spent(words + ["--times"] + more, 1)
            self.held("one line", (3, True), (status, told.endswith(NO_OUTPUT + b"standard output: its reader is gone\n")))
            made.append(told.count(b"\n") - 2)
        text >>= 10
        print("  one line: %d of %d calls made, with threads %d; %d calls more have %d MiB of lines, and %.1f MiB of memory, with threads %.1f MiB"
              % (made[0], calls, made[1], EARLY_CALLS, text >> 10, grown[0] / 1024, grown[1] / 1024))
        self.held("with threads all calls are made before the first line", calls, made[1])
        self.held("in turn few are", True, made[0] < calls / 20)
        self.held("the lines do not stand in memory", True, grown[0] < text / 2)
        self.held("the replies do not stand there twice", True, grown[0] < grown[1] * 0.75)

    def large_pages(self):
        """./sideways tells the C library to ask for huge pages, unless the caller's environment tells it something: here a program that shows it."""
        script = self.built()
        shows = Path(script).parent / "crates/sideways/out/sideways"
        shows.write_text('#!/bin/sh\nprintf %s "$GLIBC_TUNABLES"\n')
        others = {name: value for name, value in os.environ.items() if name != "GLIBC_TUNABLES"}
        for name, given, told in (
                ("no word of the caller's", {}, b"glibc.malloc.hugetlb=1:glibc.malloc.mmap_threshold=1048576:glibc.malloc.top_pad=33554432"),
                ("an empty one", {"GLIBC_TUNABLES": ""}, b""),
                ("another one", {"GLIBC_TUNABLES": "glibc.malloc.arena_max=2"}, b"glibc.malloc.arena_max=2")):
            self.held("%s to the C library" % name, (0, told, b""), self.call(self.run, script, env={**others, **given}))

    # An answer that is not proved

    def unproved(self):
        """Without a proved program ./sideways answers by `rt try`, and says so each time: here by a stand-in for rt."""
        script = self.built()
        top = Path(script).parent
        (top / "crates/sideways/out/sideways").unlink()
        tools = self.folder / "tools"
        tools.mkdir()
        stand_in = tools / "rt"
        stand_in.write_text(STAND_IN % self.program)
        stand_in.chmod(0o755)
        (top / "crates/sideways/src").mkdir()
        more = {"env": {**os.environ, "PATH": "%s:%s" % (tools, os.environ["PATH"])}}
        line = b"sideways: NOT PROVED: "
        missing = b"sideways: refused 12\n%s/none.csv: there is no such file\n" % str(self.folder).encode()
        version = self.call(["--version"])[1] + b"commit unknown\n"
        for name, words, expected in (
                ("a run", self.run, (0, OUT, b"")),
                ("a run with equals signs", ["run", "--table=t.csv", "--script=s.txt"], (0, OUT, b"")),
                ("a run that is refused", ["run", "--table", "none.csv", "--script", "s.txt"], (2, b"", missing)),
                ("the version", ["--version"], (0, version, b"")),
                ("a history", self.run + ["--history", "h.json"], (0, OUT, b"")),
                ("a check", ["check", "h.json"], (0, b"legal: 2 entries\n", b""))):
            status, out, told = self.call(words, script, **more)
            first, _, rest = told.partition(b"\n")
            self.held("%s, not proved" % name, expected + (True,), (status, out, rest, first.startswith(line)))
        self.held("the history that was kept", self.history, self.take("h.json"))
        status, out, told = self.call(["lost"], script, **more)
        self.held("a run past the bounds", (3, b"", True), (status, out, b"./sideways prove" in told))
        shutil.copy(self.program, top / "crates/sideways/out/sideways")
        self.held("the same once it is proved", (0, OUT, b""), self.call(self.run, script, **more))
        (top / "crates/sideways/src/main.rt").write_text("")
        self.held("a source that is newer", True, self.call(self.run, script, **more)[2].startswith(line))


# Runs a program and writes its most KiB of memory to a file. The system begins that figure with the most of the process that
# starts a program, so a small one stands between.
MEASURED = """
import os, sys
child = os.fork()
if child == 0:
    os.execv(sys.argv[2], sys.argv[2:])
_, status, used = os.wait4(child, 0)
with open(sys.argv[1], "w") as out:
    out.write(str(used.ru_maxrss))
sys.exit(os.waitstatus_to_exitcode(status))
"""

# Runs the program as `rt try` does: what it says itself comes after what the program told.
STAND_IN = """#!/bin/sh
[ "$1" = try ] && [ "$2" = -- ] || exit 9
shift 2
cd / || exit 9
if [ "$1" = lost ]; then echo 'checked: no-answer' >&2; echo 'run=none proved=no' >&2; exit 6; fi
'%s' "$@"
status=$?
echo 'checked: ended status='$status >&2
echo 'races: not looked for, since a kit has no ThreadSanitizer' >&2
echo 'run=ended status='$status' runners=1 races=unchecked proved=no' >&2
exit $status
"""


def main():
    parser = argparse.ArgumentParser(description=__doc__.split("\n")[0])
    parser.add_argument("--program", default=str(TOP / "crates/sideways/out/sideways"), help="the built program")
    program = Path(parser.parse_args().program).resolve()
    if not os.access(program, os.X_OK):
        sys.exit("ends.py: there is no program %s: rt ci or ./sideways prove makes it" % program)
    began = time.time()
    with tempfile.TemporaryDirectory() as folder:
        ends = Ends(program, folder)
        for what in (ends.refused_inputs, ends.lost_replies, ends.killed_runs, ends.wanting_memory, ends.full_disks, ends.other_writers,
                     ends.in_place_of, ends.may_not_write, ends.other_files, ends.other_lists, ends.size_limits, ends.little_room,
                     ends.small_stacks, ends.early_lines, ends.large_pages, ends.unproved):
            before = ends.cases
            try:
                what()
            except Wrong as case:
                print(case)
                sys.exit(1)
            print("%s: %d as expected" % (what.__name__.replace("_", " "), ends.cases - before), flush=True)
    print("%d cases as expected in %.0f s" % (ends.cases, time.time() - began))


if __name__ == "__main__":
    main()
