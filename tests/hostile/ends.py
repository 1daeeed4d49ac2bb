#!/usr/bin/env python3
"""Ends that fail: pipes that are closed, disks that are full after each number of bytes, files that cannot be opened or read,
sources that give few bytes at a time, each read and each write failing in turn, writes that take few bytes at a time, and standard
streams that are closed. Each run must end with its status and its line, what went out must be a beginning of what was to go out,
and no file but the named one may change. Ends with 1 and the first case that is wrong."""
import fcntl, os, resource, struct, subprocess, tempfile, termios, threading, time
from pathlib import Path
from histories import check
from memory import preload, refusing
from model import run
from running import TOP, bytes_of, ended, options, without_words, wrong
import running

TABLE = b"a:int,b:int,c:int\n12,7,1\n3,8,0\n12,5,1\n20,2,0\n"
SCRIPT = b"count\nselect b, c where a >= 10\ninsert 1, 2, 3\n---\nsum a\nmin b where c = 0\ndelete 2\nselect a\n"
STATUS, OUT, _, HISTORY = run(TABLE, SCRIPT)
RUN = ["run", "--table", "t.csv", "--script", "s.txt"]
NO_INPUT, NO_OUTPUT = (2, "", "sideways: refused 12\n"), "sideways: refused 13\n"
MANY = b"a\n" + b"".join(b"%d\n" % number for number in range(1000))


# A table, a script and what they give, each more than three blocks of 64 KiB.
LONG_TABLE = b"a:int,b:int\n" + b"".join(b"%050d,%d\n" % (row, row * 7919 % 1009) for row in range(4000))
LONG_SCRIPT = b"insert 1, 2\ncount\nselect a, b where a >= 3980\n" * 900 + b"# nothing\n" * 20000
_, LONG_OUT, _, LONG_HISTORY = run(LONG_TABLE, LONG_SCRIPT)

# The name of a history until it is whole.
BEGUN = "sideways.1.part"

def told(program, words, folder, **more):
    """A run, as `running.told` has it, without the words behind a fault line."""
    status, out, fault = running.told(program, words, folder, **more)
    return status, out, without_words(fault)


# What the library tells of the failed read or write.
MET = "read or write failed\n"


# What is told where a history would be written over another file of its run: its beginning, and the status.
OVER = "error: the history would be written over "


class Ends:
    def __init__(self, program):
        self.program, self.made = program, 0
        # Under a limit of file sizes the program is called as ./sideways calls it.
        built = Path(program) == TOP / "crates/sideways/out/sideways"
        self.limited = [str(TOP / "sideways")] if built else ["sh", "-c", 'trap "" XFSZ; exec "$0" "$@"', program]
        self.home = tempfile.TemporaryDirectory()
        self.folder = Path(self.home.name)
        self.put("t.csv", TABLE)
        self.put("s.txt", SCRIPT)
        self.put("h.json", HISTORY)
        self.library = preload(self.folder, "failing")

    def put(self, name, data):
        (self.folder / name).write_bytes(data)

    def held(self, name, words, expected, got):
        self.made += 1
        if got != expected:
            wrong(name, {}, words, expected, got)

    def hold(self, name, words, expected, **more):
        self.held(name, words, expected, told(self.program, words, self.folder, **more))

    def hold_under(self, name, words, expected, limit):
        """A run that begins under a limit."""
        self.held(name, words, expected, told(self.limited[0], self.limited[1:] + words, self.folder, preexec_fn=limit))

    def streams(self, words, program=None, **more):
        """A run with streams of its own; its status and what it told."""
        done = subprocess.run((program or [self.program]) + words, cwd=self.folder, stdin=subprocess.DEVNULL, timeout=60, **more)
        return done.returncode, None if done.stderr is None else without_words(done.stderr.decode())

    # Pipes

    def closed_pipes(self):
        """A pipe whose reader went away: before the run, or after one line of much output."""
        self.put("many.csv", MANY)
        self.put("many.txt", b"select a\n" * 500)
        many = ["run", "--table", "many.csv", "--script", "many.txt"]
        for words in (RUN, many, ["check", "h.json"], ["--help"], many + ["--threads"]):
            reader, writer = os.pipe()
            os.close(reader)
            self.held("a pipe without a reader", words, (3, NO_OUTPUT), self.streams(words, stdout=writer, stderr=subprocess.PIPE))
            self.held("two pipes without a reader", words, (3, None), self.streams(words, stdout=writer, stderr=writer))
            os.close(writer)
        child = subprocess.Popen([self.program] + many, cwd=self.folder, stdout=subprocess.PIPE, stderr=subprocess.PIPE)
        line = child.stdout.readline()
        child.stdout.close()
        self.held("one line read, then closed", many, (b"1: 0\n", NO_OUTPUT.encode(), 3), (line, without_words(child.stderr.read().decode()).encode(), child.wait(60)))
        reader, writer = os.pipe()
        os.set_blocking(writer, False)
        self.held("a full pipe that does not wait", many, (3, NO_OUTPUT), self.streams(many, stdout=writer, stderr=subprocess.PIPE))
        os.close(writer)
        with open(reader, "rb") as pipe:
            self.held("what went into the full pipe", many, True, run(MANY, b"select a\n" * 500)[1].encode().startswith(pipe.read()))

    # Full disks

    def full_disks(self):
        """A file that takes so many bytes and no more, as output and as history. Then the device that is always full."""
        def few(bytes_left):
            return lambda: resource.setrlimit(resource.RLIMIT_FSIZE, (bytes_left, resource.RLIM_INFINITY))
        for most in range(len(OUT) + 2):
            with open(self.folder / "out", "wb") as out:
                got = self.streams(RUN, self.limited, stdout=out, stderr=subprocess.PIPE, preexec_fn=few(most))
            went = (self.folder / "out").read_bytes()
            expected = (3, NO_OUTPUT) if most < len(OUT) else (0, "")
            self.held("an output of at most %d bytes" % most, RUN, (expected, OUT.encode()[:most]), (got, went))
        words = RUN + ["--history", "kept.json"]
        for most in range(len(HISTORY) + 2):
            fits = most >= len(HISTORY)
            self.hold_under("a history of at most %d bytes" % most, words, (0, OUT, "") if fits else (3, OUT, NO_OUTPUT), few(most))
            self.held("the history of at most %d bytes" % most, words, HISTORY if fits else None, bytes_of(self.folder / "kept.json"))
        self.hold("its check", ["check", "kept.json"], check(HISTORY))
        with open("/dev/full", "wb") as full:
            for words in (RUN, ["check", "h.json"], ["--help"], RUN + ["--stats"]):
                self.held("an output to a full device", words, (3, NO_OUTPUT), self.streams(words, stdout=full, stderr=subprocess.PIPE))
                self.held("all to a full device", words, (3, None), self.streams(words, stdout=full, stderr=full))
        self.hold("a history to a full device", RUN + ["--history", "/dev/full"], (3, OUT, NO_OUTPUT))

    # Files

    def files(self):
        """Files that cannot be opened, read or written."""
        (self.folder / "folder").mkdir()
        (self.folder / "loop").symlink_to("loop")
        self.put("closed", b"a\n1\n")
        (self.folder / "closed").chmod(0)
        names = ["none", "none/t.csv", "t.csv/x", "folder", "loop", "x" * 5000, "", "/proc/self/mem"]
        for name in names:
            self.hold("a table %.20r" % name, ["run", "--table", name, "--script", "s.txt"], NO_INPUT)
            self.hold("a script %.20r" % name, ["run", "--table", "t.csv", "--script", name], NO_INPUT)
            self.hold("a check of %.20r" % name, ["check", name], NO_INPUT)
            self.hold("a history %.20r" % name, RUN + ["--history", name], (0, OUT, "") if name == "none" else (3, OUT, NO_OUTPUT))
            if name == "none":
                (self.folder / name).unlink()
        self.held("the table after all this", [], TABLE, (self.folder / "t.csv").read_bytes())
        if os.getuid() == 0:
            os.chmod(self.folder, 0o755)
            nobody = {"user": 65534, "group": 65534, "extra_groups": []}
            if told(self.program, ["--help"], "/", **nobody)[0] == 0:
                self.hold("a table that may not be read", ["run", "--table", "closed", "--script", "s.txt"], NO_INPUT, **nobody)
                self.hold("a history that may not be written", RUN + ["--history", "closed"], (3, OUT, NO_OUTPUT), **nobody)
        else:
            self.hold("a table that may not be read", ["run", "--table", "closed", "--script", "s.txt"], NO_INPUT)
        self.hold("nothing as a table", ["run", "--table", "/dev/null", "--script", "s.txt"], (2, "", "sideways: refused 2 record 0 field 0\n"))
        self.hold("nothing as a script", ["run", "--table", "t.csv", "--script", "/dev/null"], (0, "", ""))
        self.hold("nothing as a history", ["check", "/dev/null"], (2, "", "sideways: refused 3 line 0 why History\n"))
        for name in ("t.csv", "./t.csv", "s.txt"):
            words = RUN + ["--history", name]
            status, out, fault = told(self.program, words, self.folder)
            self.held("a history over %s" % name, words, (2, "", True), (status, out, fault.startswith(OVER)))
        self.held("the table and the script then", [], (TABLE, SCRIPT), tuple((self.folder / name).read_bytes() for name in ("t.csv", "s.txt")))

    # Sources

    def feed(self, path, data, size):
        """Writes so many bytes at a time into a pipe, each when those before it are gone."""
        def write():
            with open(path, "wb", buffering=0) as pipe:
                for at in range(0, len(data), size):
                    pipe.write(data[at:at + size])
                    while struct.unpack("i", fcntl.ioctl(pipe, termios.FIONREAD, b"\0" * 4))[0]:
                        time.sleep(0)
        thread = threading.Thread(target=write, daemon=True)
        thread.start()
        return thread

    def sources(self):
        """Pipes that give few bytes at a time, as table, script, history and standard input."""
        for name in ("t.pipe", "s.pipe", "h.pipe"):
            os.mkfifo(self.folder / name)
        for size in list(range(1, 40)) + [64, 1000]:
            threads = [self.feed(self.folder / "t.pipe", TABLE, size), self.feed(self.folder / "s.pipe", SCRIPT, size)]
            self.hold("%d bytes at a time" % size, ["run", "--table", "t.pipe", "--script", "s.pipe"], (0, OUT, ""))
            threads.append(self.feed(self.folder / "h.pipe", HISTORY, size))
            self.hold("a history, %d bytes at a time" % size, ["check", "h.pipe"], check(HISTORY))
            for thread in threads:
                thread.join(10)
        with open(self.folder / "t.csv", "rb") as table:
            words = ["run", "--table", "/dev/stdin", "--script", "s.txt"]
            done = subprocess.run([self.program] + words, cwd=self.folder, stdin=table, capture_output=True, timeout=60)
            self.held("a table from standard input", words, (0, OUT.encode(), b""), (done.returncode, done.stdout, done.stderr))
        threads = [threading.Thread(target=lambda: os.close(os.open(self.folder / "h.pipe", os.O_RDONLY)), daemon=True)]
        threads[0].start()
        self.put("calls.txt", b"insert 1, 2, 3\n" * 30000)
        words = ["run", "--table", "t.csv", "--script", "calls.txt", "--history", "h.pipe"]
        status, _, fault = told(self.program, words, self.folder)
        self.held("a history into a pipe whose reader goes", words, (3, NO_OUTPUT), (status, fault))

    # Reads and writes that fail, or take few bytes

    def failing(self, end, **how):
        """What a run is given so that something becomes of the reads and writes of the files whose names end so."""
        return refusing(self.library, FILE=end, TOLD=1, **how)

    def failing_reads(self):
        """Each read of a table, of a script and of a checked history fails in turn, the last one, which finds the end, too."""
        for table, script, history, most, good in ((TABLE, SCRIPT, HISTORY, 16, OUT), (LONG_TABLE, LONG_SCRIPT, LONG_HISTORY, 65536, LONG_OUT)):
            files = {"read.csv": table, "read.txt": script, "read.json": history}
            for name, data in files.items():
                self.put(name, data)
            words = ["run", "--table", "read.csv", "--script", "read.txt"]
            for name in ("read.csv", "read.txt"):
                self.each_read(words, name, len(files[name]), most, (0, good, ""))
            self.each_read(["check", "read.json"], "read.json", len(history), most, check(history))

    def each_read(self, words, name, size, most, good):
        at, fault = 0, MET
        while MET in fault:
            at += 1
            status, out, fault = told(self.program, words, self.folder, **self.failing(name, FAILED=at, MOST=most))
            expected = NO_INPUT if MET in fault else good
            self.held("read %d of %s" % (at, name), words, expected, (status, out, fault.replace(MET, "")))
        self.held("the reads of %s" % name, words, -(-size // most) + 1, at - 1)

    def failing_writes(self):
        """Each write of the output and of the history fails in turn: what was written before it is there, and no more."""
        self.put("long.csv", LONG_TABLE)
        self.put("long.txt", LONG_SCRIPT)
        long = ["run", "--table", "long.csv", "--script", "long.txt"]
        for words, out, history, mosts in ((RUN, OUT, HISTORY, (1, 16)), (long, LONG_OUT, LONG_HISTORY, (65536,))):
            for most in mosts:
                self.each_write(words, "out", out.encode(), history, most)
                self.each_write(words, BEGUN, out.encode(), history, most)

    def each_write(self, words, name, out, history, most):
        words, at, fault = words + ["--history", "kept.json"], 0, MET
        while MET in fault:
            at += 1
            got = self.written(words, "out", "kept.json", **self.failing("/" + name, FAILED=at, MOST=most))
            fault, before = got[1], (at - 1) * most
            if MET not in fault:
                expected = (0, "", out, history)
            else:
                expected = (3, MET + NO_OUTPUT, out[:before] if name == "out" else out, None)
            self.held("what is begun", words, None, bytes_of(self.folder / BEGUN))
            self.held("write %d of %s" % (at, name), words, expected, got)
        self.held("the writes of %s" % name, words, -(-len(out if name == "out" else history) // most), at - 1)

    def written(self, words, out, history, **more):
        """A run whose output goes into a file: the status, what is told, and what is in this file and in the history's."""
        (self.folder / history).unlink(missing_ok=True)
        with open(self.folder / out, "wb") as file:
            status, fault = self.streams(words, stdout=file, stderr=subprocess.PIPE, **more)
        return status, fault, (self.folder / out).read_bytes(), bytes_of(self.folder / history)

    def short_writes(self):
        """Writes that take so many bytes at most: all of the output, of the history and of a fault's line goes out."""
        self.put("long.csv", LONG_TABLE)
        self.put("long.txt", LONG_SCRIPT)
        long = ["run", "--table", "long.csv", "--script", "long.txt"]
        cases = [(RUN, OUT, HISTORY, most) for most in range(1, len(HISTORY) + 1)]
        cases += [(long, LONG_OUT, LONG_HISTORY, most) for most in (1, 2, 3, 1000, 4095, 65535)]
        for words, out, history, most in cases:
            words = words + ["--history", "history.short"]
            got = self.written(words, "out.part", "history.short", **self.failing(".part", MOST=most))
            self.held("writes of at most %d bytes" % most, words, (0, "", out.encode(), history), got)
        whole = running.told(self.program, ["check", "none"], self.folder)[2]
        self.held("a line", ["check", "none"], NO_INPUT[2], without_words(whole))
        for most in range(1, len(whole)):
            with open(self.folder / "told.short", "wb") as file:
                status = self.streams(["check", "none"], stdout=subprocess.DEVNULL, stderr=file, **self.failing(".short", MOST=most))[0]
            line = (self.folder / "told.short").read_text()
            self.held("a line by %d bytes at most" % most, ["check", "none"], (NO_INPUT[0], whole), (status, line))

    def closed_streams(self):
        """Standard streams that are closed when the program begins: that is told, and no file is written in their place."""
        words = RUN + ["--history", "closed.json", "--stats"]
        for streams in ((0,), (1,), (2,), (0, 1), (0, 2), (1, 2), (0, 1, 2)):
            done = subprocess.run([self.program] + words, cwd=self.folder, capture_output=True, timeout=60,
                                  preexec_fn=lambda: [os.close(stream) for stream in streams])
            kept = self.folder / "closed.json"
            expected = (3 if 1 in streams or 2 in streams else 0, b"" if 1 in streams else OUT.encode(), None if 1 in streams else HISTORY)
            got = done.returncode, done.stdout, kept.read_bytes() if kept.exists() else None
            self.held("closed streams %r" % (streams,), words, expected, got)
            self.held("the table with closed streams %r" % (streams,), words, TABLE, (self.folder / "t.csv").read_bytes())
            kept.unlink(missing_ok=True)


def main():
    given = options(__doc__)
    ends = Ends(given.program)
    kinds = [ends.closed_pipes, ends.full_disks, ends.files, ends.sources, ends.failing_reads, ends.failing_writes, ends.short_writes,
             ends.closed_streams]
    for what in kinds:
        before, began = ends.made, time.time()
        what()
        print("%s: %d as expected, %.0f s" % (what.__name__.replace("_", " "), ends.made - before, time.time() - began), flush=True)


if __name__ == "__main__":
    ended(main)
