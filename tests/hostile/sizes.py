#!/usr/bin/env python3
"""The greatest sizes, and one more of each: bytes of a table and of a script, rows, calls, blocks on threads, entries of a
history; and blocks of selects that take more memory than there is. Each ends with its answer or its refusal within an
address space of some GiB; the seconds and the greatest memory are told. Every reply is held against what the input makes it, a call
that was refused apart, and a history against the output and, where that is quick, by `check`. Takes some minutes, 2 GiB of disk and
up to 6 GiB of memory. Ends with 1 and the first case that is wrong."""
import json, os, resource, subprocess, tempfile, time
from pathlib import Path
from running import ended, options, without_words, wrong

MOST, ROWS = 1 << 28, 1 << 20
SMALL = b"a,b\n1,2\n3,4\n"
REFUSED = b"refused 1\n"

# Blocks on threads: how many, and how often those between the first and the last make their four calls.
BLOCKS, OFTEN = 1024, 250
FIRST = [call for number in range(512) for call in ("insert %d, 1" % number, "count where a < %d" % number)]
CALLS = ["insert 5, 5", "count where a < 9", "select b where b >= 4 and b <= 4 and a >= 3 and a <= 3", "count where b >= 4 and b <= 4"]


def whole(pipe):
    """All that a program writes; of very much output the beginning."""
    return pipe.read(1 << 26)


def each_of(replies):
    """Reads replies, of which each is the known one or a refusal: how many of each there are, and the first that is neither."""
    def read(pipe):
        answered = refused = 0
        for reply in replies:
            line = pipe.readline(len(reply) + len(REFUSED))
            if line == REFUSED:
                refused += 1
            elif line + pipe.read(max(0, len(reply) - len(line))) == reply:
                answered += 1
            else:
                return answered, refused, (reply[:100], line[:100])
        rest = pipe.read(100)
        return answered, refused, (b"", rest) if rest else None
    return read


class Sizes:
    def __init__(self, program):
        self.program, self.home = program, tempfile.TemporaryDirectory()
        self.folder = Path(self.home.name)

    def put(self, name, pieces):
        with open(self.folder / name, "wb") as file:
            for piece in pieces:
                file.write(piece)
            return file.tell()

    def measured(self, name, words, gib, expected, read=whole):
        """One run; `expected` judges status, what `read` made of the output, and fault. Tells the seconds and the greatest memory."""
        began = time.time()
        child = subprocess.Popen([self.program] + words, cwd=self.folder, stdin=subprocess.DEVNULL, stdout=subprocess.PIPE, stderr=subprocess.PIPE,
                                 preexec_fn=lambda: resource.setrlimit(resource.RLIMIT_AS, (gib << 30, gib << 30)))
        with child.stdout as pipe:
            out = read(pipe)
        fault = without_words(child.stderr.read().decode())
        _, status, usage = os.wait4(child.pid, 0)
        seconds, status = time.time() - began, os.waitstatus_to_exitcode(status)
        print("%-58s status %2d, %6.1f s, %5d MiB %s" % (name + ":", status, seconds, usage.ru_maxrss >> 10, fault.strip()), flush=True)
        if not expected(status, out, fault):
            wrong(name, {}, words, "what the driver says of this case", (status, out[:200], len(out), fault))
        return out

    def run(self, name, expected, more=(), gib=6, read=whole):
        return self.measured(name, ["run", "--table", "t.csv", "--script", "s.txt", "--quiet"] + list(more), gib, expected, read)

    def held(self, name, expected, got):
        if got != expected:
            wrong(name, {}, [], expected, got)

    def script(self, *lines):
        self.put("s.txt", [line + b"\n" for line in lines])

    def tables(self):
        row = b"%063d,%063d,%063d,%063d\n"
        def bytes_of_table(more):
            yield b"a,b,c,d\n"
            for number in range(ROWS - 1):
                yield row % (number, 1, number % 7, 2)
            yield b"%063d,%063d,%063d,%055d\n" % (ROWS - 1, 1, (ROWS - 1) % 7, 2) + more
        total = ROWS * (ROWS - 1) // 2
        self.script(b"count", b"sum a", b"sum d where b = 1", b"count where a >= 1000 and a < 2000 and c = 3", b"select a where a < 1", b"min a", b"max a",
                    b"select d where a >= %d" % (ROWS - 1))
        thousand = sum(number % 7 == 3 for number in range(1000, 2000))
        replies = b"%d\n%d\n%d\n%d\n1: 0\n(1 rows)\n0\n%d\n%d: 2\n(1 rows)\n" % (ROWS, total, 2 * ROWS, thousand, ROWS - 1, ROWS)
        assert self.put("t.csv", bytes_of_table(b"")) == MOST
        self.run("a table of 256 MiB", answered(replies))
        self.put("t.csv", bytes_of_table(b"\n"))
        self.run("a table of 256 MiB and a byte", refused_of(5, "limit %d" % MOST))

    def rows(self):
        self.put("t.csv", [b"a,b,c,d,e,f,g,h\n"] + [b"%d,%d,1,2,3,4,5,6\n" % (number, ROWS - number) for number in range(ROWS)])
        self.script(b"count", b"sum a where b > 1000", b"select h where a < 10 and b > 5 and c = 1", b"max b where d = 2 and e = 3 and f = 4 and g = 5",
                    b"select a, b, h")
        ten = b"".join(b"%d: 6\n" % key for key in range(1, 11))
        every = b"".join(b"%d: %d, %d, 6\n" % (number + 1, number, ROWS - number) for number in range(ROWS))
        replies = b"%d\n%d\n%s(10 rows)\n%d\n%s(%d rows)\n" % (ROWS, sum(range(ROWS - 1000)), ten, ROWS, every, ROWS)
        self.run("1,048,576 rows of 8 attributes", answered(replies))
        with open(self.folder / "t.csv", "ab") as file:
            file.write(b"x\n")
        self.run("1,048,577 rows of 8 attributes", refused_of(5, "limit %d" % ROWS))

    def scripts(self):
        self.put("t.csv", [SMALL])
        line = b"#" * 4095 + b"\n"
        self.put("s.txt", [line * (MOST // 4096)])
        self.run("a script of 256 MiB of comments", answered(b""))
        self.put("s.txt", [line * (MOST // 4096), b"\n"])
        self.run("a script of 256 MiB and a byte", refused_of(5, "limit %d" % MOST))
        self.put("s.txt", [b"count".ljust(255) + b"\n"] * ROWS)
        self.run("1,048,576 calls in 256 MiB", answered(b"2\n" * ROWS))
        self.put("s.txt", [b"count\n"] * (ROWS + 1))
        self.run("1,048,577 calls", refused_of(5, "limit %d" % ROWS))

    def blocks(self):
        """Blocks on threads: each block's calls are in the history in their order, with the replies that went out, and these are right there."""
        blocks = [FIRST] + [CALLS * OFTEN] * (BLOCKS - 2) + [["count"]]
        self.put("t.csv", [SMALL])
        self.put("s.txt", ["---\n".join("".join(call + "\n" for call in block) for block in blocks).encode()])
        whole_run = lambda status, out, fault: (status, fault) == (0, "")
        out = self.run("1,024 blocks on threads, and a history", whole_run, ["--threads", "--history", "h.json"], 16)
        with open(self.folder / "h.json", "rb") as file:
            entries = json.load(file)["entries"]
        calls, lines = [[] for _ in blocks], [[] for _ in blocks]
        for entry, reply in zip(entries, in_order(entries)):
            self.held("an entry of the blocks' history", (entry["call"], reply), (entry["call"], entry["reply"]))
            calls[entry["session"] - 1].append(entry["call"])
            lines[entry["session"] - 1] += reply
        self.held("the calls of the blocks' history", True, calls == blocks)
        self.held("the replies of the blocks", True, out.decode() == "---\n".join("".join(line + "\n" for line in block) for block in lines))

    def histories(self):
        self.put("t.csv", [b"a,b\n"])
        self.put("s.txt", [b"insert 1, 2\n"] * ROWS)
        self.run("1,048,576 calls with a history", answered(b"".join(b"key %d\n" % key for key in range(1, ROWS + 1))), ["--history", "h.json"])
        data = (self.folder / "h.json").read_bytes()
        entries = b",".join(b'{"call":"insert 1, 2","reply":["key %d"],"session":1}' % key for key in range(1, ROWS + 1))
        same = data == b'{"attributes":["a:int","b:int"],"entries":[%s],"format":1,"limit":%d,"rows":[]}' % (entries, ROWS)
        self.held("the history of 1,048,576 calls", True, same)
        self.measured("a history of 1,048,576 entries", ["check", "h.json"], 6, answered(b"legal: %d entries\n" % ROWS))
        self.put("h.json", [data.replace(b'["key %d"]' % ROWS, b'["key %d"]' % (ROWS + 1))])
        not_legal = b"not legal: entry %d\n" % ROWS
        self.measured("the same with another last reply", ["check", "h.json"], 6, lambda *got: got == (1, not_legal, ""))
        entry = b'{"call":"count","reply":["%d"],"session":1}' % ROWS
        self.put("h.json", [data.replace(b'}],"format"', b"}," + entry + b'],"format"')])
        self.measured("a history of 1,048,577 entries", ["check", "h.json"], 6, refused_of(5, "limit %d" % ROWS))
        self.put("h.json", [data[:-1]])
        self.measured("a history of 1,048,576 entries, cut by a byte", ["check", "h.json"], 6, refused_of(3, "line 0 why History"))

    def selects(self):
        """Blocks whose replies take more memory than there is: a call that finds none is refused, and each other one answered."""
        self.put("t.csv", [b"a,b,c,d\n"] + [b"%d,1,2,3\n" % number for number in range(100000)])
        lines = ["%d: %d, 1, 2, 3" % (number + 1, number) for number in range(100000)] + ["(100000 rows)"]
        reply = "".join(line + "\n" for line in lines).encode()
        self.put("s.txt", [b"select a, b, c, d\n"] * 2000)
        self.run("2,000 selects of 100,000 rows within 4 GiB", many_refused(2000), [], 4, each_of([reply] * 2000))
        self.put("s.txt", [b"count\n"] + [b"select a, b, c, d\n"] * 300 + [b"count\n"])
        replies = [b"100000\n"] + [reply] * 300 + [b"100000\n"]
        told = "sideways: refused 1\n"  # nor is there room for the text of so many replies
        self.put("h.json", [b"what stood there"])
        self.run("300 selects of 100,000 rows within 1 GiB, and a history", many_refused(302, told), ["--history", "h.json"], 1, each_of(replies))
        self.held("the history of that run", b"what stood there", (self.folder / "h.json").read_bytes())

    def million(self):
        self.put("t.csv", [b"a\n"] + [b"%d\n" % number for number in range(100)])
        self.put("s.txt", [b"select a\n"] * ROWS)
        reply = b"".join(b"%d: %d\n" % (number + 1, number) for number in range(100)) + b"(100 rows)\n"
        self.run("1,048,576 selects of 100 rows within 1 GiB", many_refused(ROWS), [], 1, each_of([reply] * ROWS))


def in_order(entries):
    """What each call of the blocks on threads is answered, in this order of all calls."""
    keys, cells = 2, [0] * 512
    cells[1] = cells[3] = 1
    known = {CALLS[2]: ["2: 4", "(1 rows)"], CALLS[3]: ["1"]}
    for entry in entries:
        words = entry["call"].replace(",", "").split()
        if words[0] == "insert":
            keys += 1
            cells[int(words[1])] += 1
            yield ["key %d" % keys]
        elif words[:3] == ["count", "where", "a"]:
            yield [str(sum(cells[:int(words[4])]))]
        else:
            yield known.get(entry["call"], [str(keys)])


def answered(text):
    """Judges a run that is answered whole."""
    return lambda status, out, fault: (status, out, fault) == (0, text, "")


def refused_of(number, fields):
    """Judges a run that is refused before any call."""
    return lambda status, out, fault: (status, out, fault) == (2, b"", "sideways: refused %d %s\n" % (number, fields))


def many_refused(calls, told=""):
    """Judges a run of which some calls are refused for want of memory, and all others answered, and which tells this."""
    def expected(status, out, fault):
        done, refused, other = out
        print("    %d of %d calls answered, %d refused" % (done, calls, refused), flush=True)
        return (status, fault, other, done + refused) == (3, told, None, calls) and done > 0 and refused > 0
    return expected


def main():
    sizes = Sizes(options(__doc__).program)
    for case in (sizes.tables, sizes.rows, sizes.scripts, sizes.blocks, sizes.histories, sizes.selects, sizes.million):
        case()


if __name__ == "__main__":
    ended(main)
