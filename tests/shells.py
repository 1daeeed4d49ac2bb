#!/usr/bin/env python3
"""What a shell takes and tells: lines from a pipe and at a terminal, commands, files, faults, statuses. Each case is a run of the built
program, whose status, output and standard error are compared.

    tests/shells.py [--program PATH]

PATH is the built program, by default crates/sideways/out/sideways. Ends with 1 at the first case that is wrong, which it shows; its last
line tells how many cases there were."""
import argparse, os, pty, random, select, subprocess, sys, tempfile, time
from pathlib import Path

TOP = Path(__file__).resolve().parents[1]
TABLE = b"a:int,b:int,c:int\n12,7,1\n3,8,0\n12,5,1\n20,2,0\n"
CITIES = b"city:text,n:int\nOslo,1\nRoma,2\n"
NAMES = "a:int\nb:int\nc:int\n"
WORDS = "select count sum min max insert delete where and true false .help .names .stats .times .write .history .quit".split()
FAULT = """sideways: refused 4 name d
line 1, column 13: 'd' cannot stand there, wanted a, b, c
  count where d = 1
              ^
"""


def unwritten(name, why="it cannot be written"):
    """What is told where this cannot be written."""
    return "sideways: refused 13\n%s: %s\n" % (name, why)


class Wrong(Exception):
    pass


class Cases:
    def __init__(self, program, folder):
        self.program, self.folder, self.cases = str(program), Path(folder), 0
        (self.folder / "t.csv").write_bytes(TABLE)
        (self.folder / "cities.csv").write_bytes(CITIES)
        (self.folder / "bad.csv").write_bytes(b"a:int\nx\n")
        (self.folder / "folder").mkdir()

    def call(self, words, given=b""):
        done = subprocess.run([self.program] + words, cwd=self.folder, input=given, capture_output=True, timeout=60)
        return done.returncode, done.stdout.decode(), done.stderr.decode(errors="replace")

    def case(self, name, words, given, status, out, told):
        self.cases += 1
        got = self.call(words, given.encode())
        for what, wanted, found in zip(("status", "output", "standard error"), (status, out, told), got):
            if wanted is not None and wanted != found:
                raise Wrong("WRONG: %s\n  %s\n  wanted %r\n  got    %r" % (name, what, wanted, found))
        return got

    def shell(self, name, given, status, out, told, words=()):
        return self.case(name, ["shell", "t.csv"] + list(words), given, status, out, told)

    def holds(self, name, fact, what=""):
        self.cases += 1
        if not fact:
            raise Wrong("WRONG: %s %r" % (name, what))

    def bytes_of(self, name):
        return (self.folder / name).read_bytes()

    # Calls and faults

    def calls(self):
        self.shell("no line", "", 0, "", "")
        self.shell("calls, a comment and an empty line", "count\n# no call\n\nselect b where a >= 20\n", 0, "4\n4: 2\n(1 rows)\n", "")
        self.shell("a last line without its end, and one with a carriage return", "count\r\ncount", 0, "4\n4\n", "")
        self.shell("a line that is refused", "count where d = 1\ncount\n", 2, "4\n", FAULT)
        self.shell("the number of a line", "count\n\ncount where\n", 2, "4\n", None)
        got = self.shell("a divider", "---\ncount\n", 2, "4\n", None)
        self.holds("its fault line", got[2].startswith("sideways: refused 3 line 1 why Word\nline 1, column 1: "), got[2])
        got = self.shell("a line that is too long", "count" + " " * 5000 + "\ncount\n", 2, "4\n", None)
        self.holds("its fault line", got[2] == "sideways: refused 3 line 1 why Length\nline 1: 5005 bytes, at most 4096\n", got[2])
        self.shell("the limit of rows", "insert 1, 1, 1\ninsert 2, 2, 2\ncount\n", 0, "key 5\nfull\n5\n", "", ["--limit", "5"])

    # Commands

    def commands(self):
        self.shell(".names", ".names\n", 0, NAMES, "")
        self.shell(".quit", "count\n.quit\ncount\n", 0, "4\n", "")
        self.shell("white space behind .quit", "count\n.quit \t\r\ncount\n", 0, "4\n", "")
        got = self.shell(".help", ".help\n", 0, None, "")
        self.holds("each command in the help", all("\n" + word in got[1] for word in WORDS if word.startswith(".")), got[1])
        got = self.shell(".stats", "count where a < 10\n.stats\n", 0, None, "")
        run = self.call(["run", "--table", "t.csv", "-e", "count where a < 10", "--stats"])
        cut = lambda text: [line.rsplit(" ", 1)[0] for line in text.splitlines()]
        self.holds("as those of a run", cut(got[1])[1:] == cut(run[2]), (got[1], run[2]))
        got = self.shell(".times", "count\n.times\ncount\n.times\ncount\n", 0, "4\n4\n4\n", None)
        lines = got[2].splitlines()
        self.holds("one time", len(lines) == 3 and lines[1].split()[0] == "2" and lines[1].split()[1].isdigit(), lines)
        self.shell("no such command", ".nothing\ncount\n", 2, "4\n", "sideways: line 1: no such command; .help lists them\n")
        for word, hint in (("quit", ".quit ends the shell"), ("exit", ".quit ends the shell"), (" help ", ".help lists the commands"),
                           ("write o.csv", ".write FILE writes the live rows"), ("history h.json", ".history FILE keeps the history")):
            got = self.shell("a command without its dot", word + "\ncount\n", 2, "4\n", None)
            self.holds("the command that it is", got[2].startswith("sideways: refused 3 line 1 why Word\nline 1, column ")
                       and got[2].endswith("\nline 1: %s\n" % hint), got)
        self.shell("a word behind a command", ".quit now\ncount\n", 2, "4\n", "sideways: line 1: no such command; .help lists them\n")
        for word in (".write", ".history", ".write  "):
            self.shell("no file", word + "\ncount\n", 2, "4\n", "sideways: line 1: the command wants the name of a file\n")

    # Files

    def files(self):
        self.shell(".write", "insert 9, 9, 9\ndelete 1\n.write o.csv\ncount\n", 0, "key 5\nremoved\n4\n", "")
        self.holds("the file", self.bytes_of("o.csv") == b"a:int,b:int,c:int\n3,8,0\n12,5,1\n20,2,0\n9,9,9\n", self.bytes_of("o.csv"))
        self.case("it is a table", ["run", "--table", "o.csv", "-e", "sum a"], "", 0, "44\n", "")
        self.shell("a name with spaces", ".write   a b.csv \n", 0, "", "")
        self.holds("that file", self.bytes_of("a b.csv") == TABLE)
        self.shell("a file that cannot be written", ".write folder/none/x.csv\ncount\n", 3, "4\n", unwritten("folder/none/x.csv"))
        self.shell("a folder", ".write folder\ncount\n", 3, "4\n", unwritten("folder", "a folder, wanted a file"))
        self.shell(".history", ".history h.json\ncount\n.write o.csv\ninsert 1, 2, 3\ncount where d = 1\n", 2, "4\nkey 5\n", None)
        self.case("its check", ["check", "h.json"], "", 0, "legal: 2 entries\n", "")
        self.shell("--history", "count\n", 0, "4\n", "", ["--history", "i.json"])
        self.case("its check", ["check", "i.json"], "", 0, "legal: 1 entries\n", "")
        run = self.call(["run", "--table", "t.csv", "-e", "count", "--history", "j.json"])
        self.holds("it is that of a run", run[0] == 0 and self.bytes_of("i.json") == self.bytes_of("j.json"))
        self.shell("the history over the table", ".history t.csv\n", 2, "", "sideways: line 1: the history would be written over the table\n")
        self.holds("the table", self.bytes_of("t.csv") == TABLE)
        got = self.shell("--history over the table", "", 2, "", None, ["--history", "t.csv"])
        self.holds("its words", "written over the table" in got[2], got[2])
        self.shell("a history that cannot be written", "count\n", 3, "4\n", unwritten("folder/none/h.json"),
                   ["--history", "folder/none/h.json"])
        (self.folder / "w.csv").write_bytes(TABLE)
        self.case("the table itself", ["shell", "w.csv"], "insert 1, 1, 1\n.write w.csv\n", 0, "key 5\n", "")
        self.holds("is written", self.bytes_of("w.csv") == TABLE + b"1,1,1\n")

    # Texts that come

    def texts(self):
        lines = "count where city = 'Paris'\ninsert 'Paris', 3\nselect city where n >= 2\ncount where city = 'Bonn' and\n.write p.csv\n"
        self.case("texts", ["shell", "cities.csv", "--history", "c.json"], lines, 2, "0\nkey 3\n2: 'Roma'\n3: 'Paris'\n(2 rows)\n", None)
        self.case("their history", ["check", "c.json"], "", 0, "legal: 3 entries\n", "")
        self.holds("their table", self.bytes_of("p.csv") == CITIES + b"Paris,3\n", self.bytes_of("p.csv"))
        draw, calls = random.Random(45), []
        for _ in range(400):
            text = "t%d" % draw.randrange(60)
            calls.append(draw.choice(["insert '%s', %d" % (text, draw.randrange(9)), "count where city = '%s'" % text, "delete %d" % draw.randrange(1, 200),
                                      "select city, n where city = '%s'" % text, "delete where city = '%s'" % text, "select city where n > 5"]))
        lines = "".join(call + "\n" for call in calls)
        got = self.case("random calls", ["shell", "cities.csv", "--history", "r.json"], lines, 0, None, "")
        run = self.call(["run", "--table", "cities.csv", "--script", "-"], lines.encode())
        self.holds("as a run answers them", got[1] == run[1])
        self.case("and their history", ["check", "r.json"], "", 0, "legal: 400 entries\n", "")

    # What is refused before the first line

    def refusals(self):
        self.case("no table", ["shell", "none.csv"], "count\n", 2, "", "sideways: refused 12\nnone.csv: there is no such file\n")
        self.case("a bad table", ["shell", "bad.csv"], "count\n", 2, "", None)
        got = self.case("standard input as the table", ["shell", "-"], "a\n1\n", 2, "", None)
        self.holds("its words", got[2].startswith("error: ") and "the lines come from standard input" in got[2], got[2])
        got = self.case("an odd header", ["shell", "t.csv", "--header", "a\n"], "", 2, "", None)
        self.holds("its words", "a header of --header has no quotes" in got[2], got[2])
        self.shell("--names", "count\n", 0, "".join(word + "\n" for word in ["a", "b", "c"] + WORDS), "", ["--names"])
        self.case("--names of a bad table", ["shell", "bad.csv", "--names"], "", 2, "", None)
        with open("/dev/full", "wb") as full:
            done = subprocess.run([self.program, "shell", "t.csv", "--names"], cwd=self.folder, stdout=full, stderr=subprocess.PIPE, timeout=60)
        self.holds("--names to a full device", done.returncode == 3 and done.stderr.decode() == unwritten("standard output"), done)
        for words, said in ((["--limit", "0"], "0 is not in"), (["--limit", "1048577"], "is not in"), (["--maps", "4097"], "is not in"),
                            (["--budget", "1099511627777"], "is not in"), (["--script", "s.txt"], "--script"), (["more.csv"], "more.csv")):
            got = self.case("words that are refused", ["shell", "t.csv"] + words, "count\n", 2, "", None)
            self.holds("what is wrong with them", got[2].startswith("error: ") and said in got[2], got[2])
        got = self.case("no table named", ["shell"], "count\n", 2, "", None)
        self.holds("its words", got[2].startswith("error: ") and "<FILE>" in got[2], got[2])
        self.shell("more rows than the limit", "count\n", 2, "", "sideways: refused 5 limit 3\nt.csv: more than 3 rows\n", ["--limit", "3"])
        self.shell("cuts", "count where a > 5\n", 0, "3\n", "", ["--cuts", "a=12"])
        self.shell("bad cuts", "count\n", 2, "", None, ["--cuts", "d=12"])

    # Failures while it talks

    def failures(self):
        with open("/dev/full", "wb") as full:
            done = subprocess.run([self.program, "shell", "t.csv", "--history", "f.json"], cwd=self.folder, input=b"count\ncount\n", stdout=full,
                                  stderr=subprocess.PIPE, timeout=60)
        self.holds("a full device", done.returncode == 3 and done.stderr.decode() == unwritten("standard output"), done)
        self.case("its history", ["check", "f.json"], "", 0, "legal: 1 entries\n", "")
        with open(os.devnull, "wb") as closed:
            done = subprocess.run([self.program, "shell", "t.csv"], cwd=self.folder, stdin=closed, capture_output=True, timeout=60)
        self.holds("lines that cannot be read", done.returncode == 2 and
                   done.stderr == b"sideways: refused 12\nstandard input: it cannot be read\n", done)
        for given in (b"count\n", b".names\n"):
            done = gone([self.program, "shell", "t.csv"], self.folder, given)
            self.holds("a reader that is gone", done == (3, unwritten("standard output", "its reader is gone")), done)

    # Each answer when its line is entered

    def turns(self):
        talk = subprocess.Popen([self.program, "shell", "t.csv"], cwd=self.folder, stdin=subprocess.PIPE, stdout=subprocess.PIPE)
        for line, reply in ((b"count\n", b"4\n"), (b"insert 1, 2, 3\n", b"key 5\n"), (b".names\n", NAMES.encode()), (b"count\n", b"5\n")):
            talk.stdin.write(line)
            talk.stdin.flush()
            got = b""
            while len(got) < len(reply) and select.select([talk.stdout], [], [], 20)[0]:
                got += os.read(talk.stdout.fileno(), 4096)
            self.holds("an answer in its turn", got == reply, got)
        talk.stdin.close()
        self.holds("the end", talk.wait(20) == 0)

    def terminal(self):
        ours, its = pty.openpty()
        talk = subprocess.Popen([self.program, "shell", "t.csv"], cwd=self.folder, stdin=its, stdout=its, stderr=its, start_new_session=True)
        os.close(its)

        def until(what):
            got = b""
            while not got.endswith(what) and select.select([ours], [], [], 20)[0]:
                got += os.read(ours, 4096)
            return got

        first = until(b"sideways> ")
        self.holds("the first prompt", first.endswith(b".help lists the commands.\r\nsideways> "), first)
        os.write(ours, b"count\n")
        self.holds("an answer and a prompt", until(b"sideways> ") == b"count\r\n4\r\nsideways> ")
        os.write(ours, b"\x04")
        self.holds("Ctrl-D", talk.wait(20) == 0)
        os.close(ours)


def gone(words, folder, given=b""):
    """The status and what is told where the reader of standard output is gone before it began."""
    reader, writer = os.pipe()
    os.close(reader)
    done = subprocess.run(words, cwd=folder, input=given, stdout=writer, stderr=subprocess.PIPE, timeout=60)
    os.close(writer)
    return done.returncode, done.stderr.decode()


def main():
    options = argparse.ArgumentParser()
    options.add_argument("--program", default=TOP / "crates/sideways/out/sideways")
    program = Path(options.parse_args().program).resolve()
    with tempfile.TemporaryDirectory() as folder:
        cases = Cases(program, folder)
        try:
            for part in (cases.calls, cases.commands, cases.files, cases.texts, cases.refusals, cases.failures, cases.turns, cases.terminal):
                part()
        except Wrong as wrong:
            print(wrong)
            sys.exit(1)
        print("shells.py: %d cases" % cases.cases)


main()
