#!/usr/bin/env python3
"""What the command line takes and tells: calls by -e, standard input by -, a refusal in words behind its first line, descriptions, and
replies in other forms. Each case is a run of the built program, whose status, output and standard error are compared.

    tests/words.py [--program PATH]

PATH is the built program, by default crates/sideways/out/sideways. Ends with 1 at the first case that is wrong, which it shows; its last
line tells how many cases there were."""
import argparse, collections, csv, io, json, os, random, shutil, subprocess, sys, tempfile
from pathlib import Path

TOP = Path(__file__).resolve().parents[1]
TABLE = b"a:int,b:int,c:int\n12,7,1\n3,8,0\n12,5,1\n20,2,0\n"
CITIES = b"city:text,n,price:fix2,ok:flag\nOslo,1,7.5,true\n\"Bergen, \"\"B\"\"\",2,-0.25,false\nOslo,3,3,true\n"
BAD = b"name:text,n\n\"two\nlines\",1\nx,1.5\ny\nz,\xff\n"
NAMES = "sideways import makes names of headings"
FEWER = "sideways import chooses columns, and --header passes by those that it calls -"
FULL = b"sideways: refused 13\nstandard output: it cannot be written\n"
ANY = object()


class Wrong(Exception):
    pass


class Cases:
    def __init__(self, program, folder):
        self.program, self.folder, self.cases = str(program), Path(folder), 0
        for name, data in (("t.csv", TABLE), ("cities.csv", CITIES), ("bad.csv", BAD), ("s.txt", b"count\nselect b where a >= 10\n"),
                           ("word.txt", b"count\n# a comment\r\nselect b were a >= 10\n")):
            (self.folder / name).write_bytes(data)
        (self.folder / "folder").mkdir()

    def call(self, words, given=b""):
        done = subprocess.run([self.program] + words, cwd=self.folder, input=given, capture_output=True, timeout=60)
        return done.returncode, done.stdout.decode(), done.stderr.decode(errors="replace")

    def case(self, name, words, status, out, told, given=b""):
        """One run; ANY is any text."""
        self.cases += 1
        got = self.call(words, given)
        for what, wanted, found in zip(("status", "output", "standard error"), (status, out, told), got):
            if wanted is not ANY and wanted != found:
                raise Wrong("WRONG: %s\n  %s\n  wanted %r\n  got    %r" % (name, what, wanted, found))
        return got

    def refused(self, name, words, said, given=b""):
        """A command line that is refused: status 2, nothing on standard output, and clap's text with these words in it."""
        got = self.case(name, words, 2, "", ANY, given)
        if said not in got[2] or not got[2].startswith("error: "):
            raise Wrong("WRONG: %s\n  wanted %r in\n  %r" % (name, said, got[2]))

    # Where calls and tables come from

    def inputs(self):
        replies = "4\n1: 7\n3: 5\n4: 2\n(3 rows)\n"
        calls = ["-e", "count", "-e", "select b where a >= 10"]
        self.case("calls by -e", ["run", "--table", "t.csv"] + calls, 0, replies, "")
        self.case("a divider by -e", ["run", "--table", "t.csv", "-e", "count", "-e", "---", "-e", "count"], 0, "4\n---\n4\n", "")
        self.case("no call by -e but an empty line", ["run", "--table", "t.csv", "-e", ""], 0, "", "")
        self.case("a table of standard input", ["run", "--table", "-"] + calls, 0, replies, "", TABLE)
        self.case("a script of standard input", ["run", "--table", "t.csv", "--script", "-"], 0, replies, "",
                  b"count\nselect b where a >= 10\n")
        self.case("a history of such a run", ["run", "--table", "-", "--history", "h.json"] + calls, 0, replies, "", TABLE)
        self.case("its check", ["check", "h.json"], 0, "legal: 2 entries\n", "")
        self.case("its check from standard input", ["check", "-"], 0, "legal: 2 entries\n", "", (self.folder / "h.json").read_bytes())
        self.refused("both of standard input", ["run", "--table", "-", "--script", "-"], "cannot both be standard input", TABLE)
        self.refused("a call of two lines", ["run", "--table", "t.csv", "-e", "count\ncount"], "a call of -e is one line")
        self.refused("a script and a call", ["run", "--table", "t.csv", "--script", "s.txt", "-e", "count"], "cannot be used with")
        self.refused("neither script nor call", ["run", "--table", "t.csv"], "required arguments were not provided:\n  <--script <FILE>|-e <CALL>>\n")
        self.refused("no call behind -e", ["run", "--table", "t.csv", "-e"], "a value is required for '-e <CALL>' but none was supplied")
        self.refused("no header behind --header", ["run", "--table", "t.csv", "-e", "count", "--header"], "a value is required for '--header <HEADER>'")
        self.refused("a form that is none", ["run", "--table", "t.csv", "-e", "count", "--output", "xml"], "xml")
        with open(self.folder / "t.csv", "rb") as table:
            self.cases += 1
            done = subprocess.run([self.program, "run", "--table", "-", "-e", "count", "--history", "t.csv"], cwd=self.folder, stdin=table,
                                  capture_output=True, timeout=60)
            if done.returncode != 2 or b"written over the table" not in done.stderr or (self.folder / "t.csv").read_bytes() != TABLE:
                raise Wrong("WRONG: a history over the table of standard input: %r" % (done,))

    # Odd files to import

    def imports(self):
        def told(read, written, columns, lines):
            return "sideways: standard input: %d rows read, %d written, of %d columns\n%s" % (read, written, columns, "".join("  %s\n" % line for line in lines))

        def made(name, data, table, lines, words=(), rows=(1, 1)):
            columns = table.split("\n")[0].count(",") + 1
            self.case(name, ["import", "-"] + list(words), 0, table, told(rows[0], rows[1], columns, lines), data)

        def refused(name, data, why, words=()):
            self.case(name, ["import", "-"] + list(words), 2, "", "sideways: standard input: %s\n" % why, data)

        ints = "a:int,b:int\n1,2\n"
        made("a byte order mark", b"\xef\xbb\xbfa,b\n1,2\n", ints, ["a:int", "b:int"])
        made("lines that end in CR LF", b"a,b\r\n1,2\r\n", ints, ["a:int", "b:int"])
        made("semicolons", b"a;b\n1;2\n", ints, ["a:int", "b:int"], ["--delimiter", ";"])
        made("semicolons that divide nothing", b"a;b\n1;2\n", "a_b:text\n1;2\n",
             ["a_b:text; heading `a;b`", "one column, whose heading has a divider: --delimiter ';' divides there"])
        made("semicolons that divide nothing, without headings", b"1;2\n3;4\n", "column_1:text\n1;2\n3;4\n",
             ["column_1:text", "one column, whose first cell has a divider: --delimiter ';' divides there"], ["--no-header"], (2, 2))
        made("columns without a heading", b"a,b,c,d,e,f,g,,\n1,2,3,4,5,6,7,8,9\n", "a:int,b:int,c:int,d:int,e:int,f:int,g:int,column:int\n1,2,3,4,5,6,7,8\n",
             ["%s:int" % name for name in "abcdefg"] + ["column:int; column 8 without a heading", "not written: column 9 without a heading"])
        made("headings that stand twice", b"a,a,a\n1,2,3\n", "a:int,a_2:int,a_3:int\n1,2,3\n",
             ["a:int", "a_2:int; heading `a`", "a_3:int; heading `a`"])
        made("control characters in a heading", b'"a\x1b[1m\nb"\n1\n', "a_1m_b:int\n1\n", ["a_1m_b:int; heading `a\\x1b[1m\\x0ab`"])
        made("a header alone", b"a,b\n", "a:text,b:text\n", ["a:text", "b:text"], rows=(0, 0))
        made("a short record that is filled", b"a,b\n1\n", "a:int,b:text\n1,\n", ["a:int", "b:text"], ["--ragged", "fill"])
        made("a row that is left out behind the last of a sample", b"a,b\n1,x\n,y\n2,z\n", "a:int,b:text\n1,x\n", ["a:int", "b:text"],
             ["--sample", "1", "--empty", "drop"], (3, 1))
        made("a row that is left out before the last of a sample", b"a,b\n1,x\n,y\n2,z\n,u\n", "a:int,b:text\n1,x\n2,z\n",
             ["a:int; rows left out for it: 1, the first in line 3", "b:text"], ["--sample", "2", "--empty", "drop"], (4, 2))
        made("a first cell that stands for a missing value", b"a,b\nNA,1\n2,007\n", "a:text,b:text\nNA,1\n2,007\n",
             ["a:text; texts, since line 2 has `NA`, which --null 'NA' takes for an empty cell",
              "b:text; texts, since from line 3 on, with `007`, no other kind fits all cells"], rows=(2, 2))
        made("a first cell of another kind", b"a,b\n\"1,000\",x\n900,y\n", "a:text,b:text\n\"1,000\",x\n900,y\n",
             ["a:text; texts, since line 2 has `1,000`", "b:text"], rows=(2, 2))
        made("texts by --empty text", b"a,b\n1,x\n,\n", "a:text,b:text\n1,x\n,\n",
             ["a:text; texts by --empty text, for cells without a value: 1, the first in line 3", "b:text"], ["--empty", "text"], (2, 2))
        made("a new name where none has headings", b"1,2\n", "column_1:int,x:int\n1,2\n", ["column_1:int", "x:int; column 2"],
             ["--no-header", "--rename", "2=x"])
        made("line ends in quotes, cut", b'a,b\n"x\ny",1\n', "a:text,b:int\nx,1\n", ["a:text; texts cut: 1, the first in line 2", "b:int"],
             ["--long", "cut"])
        wide = b"\n".join([b",".join(b"c%d" % k for k in range(5000)), b",".join(b"%d" % k for k in range(5000)), b""])
        got = self.case("5,000 columns", ["import", "-", "--columns", "c4999,1"], 0, "c4999:int,c0:int\n4999,0\n", ANY, wide)
        if not got[2].endswith(" and 4974 more\n"):
            raise Wrong("WRONG: how many columns are not written is not told: %r" % got[2][-80:])
        blank = ("cells without a value: 1 in column %s, the first in line 3; choose: --empty drop leaves their rows out, --empty VALUE writes VALUE "
                 "in their place, --empty text makes texts of the column")
        ragged = "--ragged fill takes fields that are missing at the end for empty ones"
        refused("an empty file", b"", "there is no record, and so no heading")
        refused("empty lines", b"\n\n\n", "there is no record, and so no heading")
        refused("an empty file without headings", b"", "there is no record", ["--no-header"])
        refused("a record too long without headings", b"1,2\n1,2,3\n", "line 2: 3 fields, and the first record has 2", ["--no-header"])
        refused("a record too short without headings", b"1,2\n1\n", "line 2: 1 field, and the first record has 2; " + ragged, ["--no-header"])
        refused("a record too long", b"a,b\n1,2,3\n", "line 2: 3 fields, and the header has 2")
        refused("a record too long, where short ones are filled", b"a,b\n1,2,3\n", "line 2: 3 fields, and the header has 2", ["--ragged", "fill"])
        refused("semicolons, and commas behind them", b"a;b\n1;2,5\n", "line 2: 2 fields, and the header has 1; one column, whose heading has a "
                "divider: --delimiter ';' divides there")
        refused("semicolons, and commas behind them, without headings", b"a;b\n1;2,5\n", "line 2: 2 fields, and the first record has 1; one column, "
                "whose first cell has a divider: --delimiter ';' divides there", ["--no-header"])
        refused("an empty cell of a column without a heading", b"a,\nx,1\ny,\n", blank % "2 without a heading")
        refused("tabs", b"a\tb\n1\t2\n", "texts of more than 64 bytes, or with bytes below 32 or 127: 1 in column 1 (a\\x09b), the first in line 2; "
                "choose: --long cut writes the longest beginning that can be a text, --long drop leaves their rows out, --long number writes numbers "
                "that stand for the texts; one column, whose heading has a divider: --delimiter '\\t' divides there")
        refused("a record too short, behind two lines", b'a,b\n"x\ny",1\n1\n', "line 4: 1 field, and the header has 2; " + ragged)
        refused("a record too short, behind an empty line, all with CR LF", b"a,b\r\n1,2\r\n\r\n3\r\n", "line 4: 1 field, and the header has 2; " + ragged)
        unclosed = "; line %d: a quote opens there that nothing closes"
        refused("a quote that is not closed", b'a,b\n"x,1\n2,3\n', "line 2: 1 field, and the header has 2; " + ragged + unclosed % 2)
        comment = "; a line that begins with # is no comment here, and sed '/^#/d' takes such lines out"
        refused("a comment before the values", b"# made today\na,b\n1,2\n", "line 2: 2 fields, and the header has 1" + comment)
        a_table = "the headings have kinds, as those of a table, which needs no import: sideways run --table -"
        made("a table", TABLE, "a_int:int,b_int:int,c_int:int\n" + TABLE.decode().split("\n", 1)[1],
             ["%s_int:int; heading `%s:int`" % (name, name) for name in "abc"] + [a_table], rows=(4, 4))
        refused("a column of a table", TABLE, "no column has the heading or the number `a`: there are 3 columns; " + a_table, ["--columns", "a"])
        seven = " (more than 6 decimals)"
        refused("a number of seven decimals", b"a\n1.5\n-0.1234567\n", "line 3, column 1 (a): `-0.1234567` is no fix6" + seven, ["--kind", "a=fix6"])
        refused("a number of a dot more", b"a\n1.5\n1.2.345678\n", "line 3, column 1 (a): `1.2.345678` is no fix6", ["--kind", "a=fix6"])
        made("numbers of seven decimals", b"a,b\n1.5,0.0000001\n0.1234567,2\n", "a:text,b:text\n1.5,0.0000001\n0.1234567,2\n",
             ["a:text; texts, since from line 3 on, with `0.1234567`%s, no other kind fits all cells" % seven,
              "b:text; texts, since line 2 has `0.0000001`" + seven], rows=(2, 2))
        refused("Latin-1", b"name,n\nJos\xe9,1\n", "texts that are not UTF-8: 1 in column 1 (name), the first in line 2; iconv -f LATIN1 -t UTF-8 makes UTF-8 "
                "of a file in Latin-1")
        for mark, coding in ((b"\xff\xfe", "utf-16-le"), (b"\xfe\xff", "utf-16-be")):
            got = self.case("UTF-16", ["import", "-"], 2, "", ANY, mark + "a,b\n1,2\n".encode(coding))
            if not got[2].endswith("; the file begins as one in UTF-16 does, of which iconv -f UTF-16 -t UTF-8 makes UTF-8\n"):
                raise Wrong("WRONG: UTF-16 is not told: %r" % got[2])
        refused("more columns than eight", wide, "more than 8 columns are asked for, and a table has at most 8",
                ["--columns", "1,2,3,4,5,6,7,8,9"])

        # What can be no table
        a_name = "a name has 1 to 32 letters, digits and underscores, begins with no digit, and is no word of scripts"
        refused("a heading of two columns", b"a,a,b\n1,2,3\n", "2 columns have the heading `a`: give the number of one", ["--columns", "a"])
        refused("a name that is none", b"a\n1\n", "`1x` is no name: " + a_name, ["--rename", "a=1x"])
        refused("a name that is a word of scripts", b"a\n1\n", "`count` is no name: " + a_name, ["--rename", "a=count"])
        refused("cells without a value", b"a,b\n1,x\n,y\n", blank % "1 (a)")
        refused("cells without a value, by a word", b"a,b\n1,x\nNA,y\n", blank % "1 (a)", ["--null", "NA"])
        refused("a value of another kind", b"a,b\n1,x\n,y\n", "`x` in place of cells without a value is no int: column 1 (a)", ["--empty", "x"])
        refused("a row too many", b"a\n" + b"1\n" * 1048577, "line 1048578: more than 1048576 rows; --sample N writes the first N")
        texts = b"".join(b"a%d,b%d\n" % (row, row) for row in range(524289))
        refused("a text too many", b"a,b\n" + texts, "the table would be refused: 5 limit 1048576")

        # What cannot be read or written
        self.case("values that are not there", ["import", "none.csv"], 2, "", "sideways: refused 12\nnone.csv: there is no such file\n")
        self.case("values that are a folder", ["import", "folder"], 2, "", "sideways: refused 12\nfolder: a folder, wanted a file\n")
        self.case("texts of numbers to a folder", ["import", "cities.csv", "--dictionary", "folder"], 3, "",
                  "sideways: refused 13\nfolder: a folder, wanted a file\n")
        self.case("texts of numbers to a file in no folder", ["import", "cities.csv", "--dictionary", "none/texts.csv"], 3, "",
                  "sideways: refused 13\nnone/texts.csv: it cannot be written\n")
        self.ended("values of standard input that cannot be read", ["import", "-"], "stdin", self.folder, 2,
                   b"sideways: refused 12\nstandard input: it cannot be read\n")
        self.ended("a table to a full device", ["import", "cities.csv"], "stdout", "/dev/full", 3, FULL)
        self.gone("a table whose reader is gone", ["import", "cities.csv"])

        # The dictionary over another file
        (self.folder / "values.csv").write_bytes(CITIES)
        number = ["import", "values.csv", "--long", "number", "--dictionary"]
        self.refused("a dictionary over the values", number + ["./values.csv"], "the dictionary would be written over the values")
        with open(self.folder / "made.csv", "wb") as made_too:
            self.cases += 1
            done = subprocess.run([self.program] + number + ["made.csv"], cwd=self.folder, stdout=made_too, stderr=subprocess.PIPE, timeout=60)
            if done.returncode != 2 or b"the dictionary would be written over the table" not in done.stderr:
                raise Wrong("WRONG: a dictionary over the table: %r" % (done,))
        if (self.folder / "values.csv").read_bytes() != CITIES:
            raise Wrong("WRONG: the values were written over")

        # Words that are refused
        for words, said in ((["--delimiter", ";;"], "the delimiter is one character of ASCII"), (["--delimiter", ""], "one character of ASCII"),
                            (["--delimiter", '"'], "the delimiter is one character of ASCII"), (["--sample", "0"], "0 is not in 1..=1048576"),
                            (["--sample", "1048577"], "1048577 is not in 1..=1048576"), (["--times", "hours"], "hours"), (["--long", "text"], "text"),
                            (["--ragged", "cut"], "cut"), (["--colums", "a"], "--columns"), (["more.csv"], "more.csv")):
            self.refused("words of import: %s" % " ".join(words), ["import", "cities.csv"] + words, said)
        self.refused("values of no file", ["import"], "required")
        data = b"city,n,ok\nOslo,1,true\n"
        for words, said in ((["--columns", "9"], "no column has the heading or the number `9`: there are 3 columns"),
                            (["--rename", "n"], "`n` has no `=` between the heading and what is asked of its column"),
                            (["--rename", "n=x", "--rename", "city=x"], "`x` is the name of more columns than one"),
                            (["--kind", "n=date"], "`date` is no kind: int, fix1 to fix6, flag, text, seconds or days"),
                            (["--columns", "n", "--kind", "ok=flag"], "`ok=flag` is asked of a column that is not written"),
                            (["--kind", "city=int"], "line 2, column 1 (city): `Oslo` is no int")):
            refused("what is asked of columns: %s" % " ".join(words), data, said, words)

    def ended(self, name, words, stream, path, status, told):
        """One run of which a standard stream leads to a path that is of no use for it."""
        self.cases += 1
        end = os.open(path, os.O_WRONLY if stream == "stdout" else os.O_RDONLY)
        try:
            done = subprocess.run([self.program] + words, cwd=self.folder, stderr=subprocess.PIPE, timeout=60, **{stream: end})
        finally:
            os.close(end)
        if (done.returncode, done.stderr) != (status, told):
            raise Wrong("WRONG: %s: %r" % (name, done))

    def closed(self, name, words):
        """One run whose standard input is closed."""
        self.cases += 1
        done = subprocess.run(["sh", "-c", 'exec "$@" <&-', "sh", self.program] + words, cwd=self.folder, capture_output=True, timeout=60)
        if (done.returncode, done.stdout, done.stderr) != (2, b"", b"sideways: refused 12\nstandard input: it cannot be read\n"):
            raise Wrong("WRONG: %s: %r" % (name, done))

    def gone(self, name, words):
        """One run whose standard output is a pipe that nobody reads."""
        self.cases += 1
        reader, writer = os.pipe()
        os.close(reader)
        try:
            done = subprocess.run([self.program] + words, cwd=self.folder, stdout=writer, stderr=subprocess.PIPE, timeout=60)
        finally:
            os.close(writer)
        if (done.returncode, done.stderr) != (3, b"sideways: refused 13\nstandard output: its reader is gone\n"):
            raise Wrong("WRONG: %s: %r" % (name, done))

    # A header on the command line

    def headers(self):
        run = ["run", "--table", "cities.csv", "--header"]
        self.case("a column passed by", run + ["city:text,-,price:fix2,-", "-e", "select city, price where price > 1"], 0,
                  "1: 'Oslo', 7.50\n3: 'Oslo', 3.00\n(2 rows)\n", "")
        self.case("the same of standard input", ["run", "--table", "-", "--header=-,n,-,-", "-e", "sum n"], 0, "6\n", "", CITIES)
        self.case("a description", ["describe", "cities.csv", "--header", "-,-,-,ok:flag"], 0,
                  "rows 3\n\nname  kind  distinct  least  greatest\nok    flag  2         false  true\n", "")
        self.case("too few words", run + ["city:text,-,price:fix2", "-e", "count"], 2, "",
                  "sideways: refused 2 record 1 field 3\ncities.csv line 2: 4 fields, --header has 3\n")
        self.case("too many words", run + ["-,n,-,-,more", "-e", "count"], 2, "",
                  "sideways: refused 2 record 1 field 2\ncities.csv line 2: 4 fields, --header has 5: more is missing\n")
        self.case("all that is missing would be passed by", run + ["-,-,-,ok:flag,-", "-e", "count"], 2, "",
                  "sideways: refused 2 record 1 field 2\ncities.csv line 2: 4 fields, --header has 5\n")
        short = b"x,y\n1,2\n\n3\n4,5,6\n"
        (self.folder / "short.csv").write_bytes(short)
        self.case("a record that is too short for what is passed by", ["run", "--table", "short.csv", "--header", "a,-", "-e", "count"], 2, "",
                  "sideways: refused 2 record 2 field 2\nshort.csv line 4: 1 field, --header has 2\n")
        self.case("the same of all faults", ["describe", "short.csv", "--header", "a,-", "--all-faults"], 2, "",
                  "sideways: refused 2 record 2 field 2\nshort.csv line 4: 1 field, --header has 2\nshort.csv line 5: 3 fields, --header has 2\n"
                  "short.csv: 2 faults\n")
        self.case("the same of standard input", ["run", "--table", "-", "--header", "a,-", "-e", "count"], 2, "",
                  "sideways: refused 2 record 2 field 2\nstandard input line 4: another number of fields than --header has, 2\n", short)
        self.case("a cell of another kind", run + ["-,-,price:fix1,-", "-e", "count"], 2, "",
                  "sideways: refused 2 record 2 field 1\n"
                  "cities.csv line 3, price:fix1: 2 decimals, wanted a number with at most 1 decimal: '-0.25'\n")
        self.case("a cell behind lines that are passed by", ["run", "--table", "bad.csv", "--header", "-,n", "-e", "count"], 2, "",
                  "sideways: refused 2 record 2 field 1\nbad.csv line 4, n:int: 1 decimal, wanted a whole number: '1.5'; "
                  "a name without a kind is an int; sideways import finds kinds\n")
        self.case("a name that is none", run + ["a b,-,-,-", "-e", "count"], 2, "",
                  "sideways: refused 2 record 0 field 1\n--header line 1, column 1: ' ' stands in a name, which has letters, digits and _: 'a b'; %s\n"
                  % NAMES)
        self.case("no column", run + ["-,-,-,-", "-e", "count"], 2, "",
                  "sideways: refused 2 record 0 field 1\n--header line 1, column 1: a column without a name: ''; %s\n" % NAMES)
        self.case("no record", ["run", "--table", "-", "--header", "a", "-e", "count"], 2, "",
                  "sideways: refused 2 record 0 field 0\nstandard input: empty, wanted a header: names with kinds, as a:int,b:fix2,c:text\n")
        self.case("more than eight columns", run + ["a,b,c,d,e,f,g,h,i", "-e", "count"], 2, "",
                  "sideways: refused 5 limit 8\n--header line 1: 9 columns, at most 8; %s\n" % FEWER)
        self.refused("a header with quotes", run + ['"a",b,c,d', "-e", "count"], "a header of --header has no quotes and no line ends")
        self.refused("a header of two lines", ["describe", "cities.csv", "--header", "a\nb"], "a header of --header has no quotes and no line ends")

    # A refusal in words

    def words(self):
        run = ["run", "--table"]
        number = "bad.csv line 4, n:int: 1 decimal, wanted a whole number: '1.5'; a name without a kind is an int; sideways import finds kinds\n"
        self.case("a cell behind one of two lines", run + ["bad.csv", "-e", "count"], 2, "",
                  "sideways: refused 2 record 1 field 1\nbad.csv line 2, name:text: byte 4 is a control byte, which no text has: 'two\\nlines'\n")
        listed = "bad.csv line 2, name:text: byte 4 is a control byte, which no text has: 'two\\nlines'\n" + number + (
            "bad.csv line 5: 1 field, the header has 2: n:int is missing\n"
            "bad.csv line 6, n:int: not a number, wanted a whole number: '\\xff'; a name without a kind is an int; sideways import finds kinds\nbad.csv: 4 faults\n")
        self.case("all faults", run + ["bad.csv", "-e", "count", "--all-faults"], 2, "", "sideways: refused 2 record 1 field 1\n" + listed)
        self.case("all faults of standard input", run + ["-", "-e", "count", "--all-faults"], 2, "",
                  "sideways: refused 2 record 1 field 1\n" + listed.replace("bad.csv", "standard input"), BAD)
        self.case("all faults of a table without one", run + ["t.csv", "-e", "count", "--all-faults"], 0, "4\n", "")
        self.case("a table that is not there", run + ["none.csv", "-e", "count"], 2, "",
                  "sideways: refused 12\nnone.csv: there is no such file\n")
        self.case("a script that is a folder", run + ["t.csv", "--script", "folder"], 2, "",
                  "sideways: refused 12\nfolder: a folder, wanted a file\n")
        self.case("a word of a script", run + ["t.csv", "--script", "word.txt"], 2, "",
                  "sideways: refused 3 line 3 why Word\n"
                  "word.txt line 3, column 10: 'were' cannot stand there, wanted where, a comma, the end of the line\n"
                  "  select b were a >= 10\n           ^\n")
        self.case("a word of an argument", run + ["cities.csv", "-e", "count", "-e", "count where city = Oslo"], 2, "",
                  "sideways: refused 3 line 2 why Value\n"
                  "argument 2, column 20: 'Oslo' cannot stand there, wanted a text in single quotes\n"
                  "  count where city = Oslo\n                     ^\n")
        self.case("a character that no call has", run + ["t.csv", "-e", "count where a > \u00e9 1"], 2, "",
                  "sideways: refused 3 line 1 why Word\nargument 1, column 17: '\u00e9' cannot stand there, wanted a whole number\n"
                  "  count where a > \u00e9 1\n                  ^\n")
        self.case("a byte order mark before a call", run + ["t.csv", "--script", "-"], 2, "",
                  "sideways: refused 3 line 1 why Word\nstandard input line 1, column 1: '\\xef\\xbb\\xbf' cannot stand there, wanted select, count, "
                  "sum, min, max, insert, delete\n   count\n  ^\n", "\ufeffcount\n".encode())
        self.case("an unknown name of an argument", run + ["t.csv", "-e", "sum d"], 2, "",
                  "sideways: refused 4 name d\nargument 1, column 5: 'd' cannot stand there, wanted a, b, c\n  sum d\n      ^\n")
        self.case("a fault of the script of standard input", run + ["t.csv", "--script", "-"], 2, "",
                  "sideways: refused 3 line 1 why End\n"
                  "standard input line 1, column 12: the line ends too early, wanted a, b, c\n  count where\n             ^\n", b"count where\n")
        self.case("cuts that fall", run + ["t.csv", "-e", "count", "--cuts", "a=2;a=1"], 2, "",
                  "sideways: refused 3 line 0 why Cuts\n--cuts, part 2: 'a=1' is refused, wanted name=value of a, b, c, each value a "
                  "cell of its column's kind and above those before it, at most 15 of a column\n")
        self.case("more rows than the limit", run + ["t.csv", "-e", "count", "--limit", "3"], 2, "",
                  "sideways: refused 5 limit 3\nt.csv: more than 3 rows\n")
        self.case("more than eight columns", run + ["-", "-e", "count"], 2, "", "sideways: refused 5 limit 8\nstandard input line 1: 9 columns, "
                  "at most 8; %s\n" % FEWER, b"a,b,c,d,e,f,g,h,i\n1,2,3,4,5,6,7,8,9\n")
        for flag in ("--history", "--log"):
            self.case("a file in no folder", run + ["t.csv", "-e", "count", flag, "none/x"], 3, "4\n",
                      "sideways: refused 13\nnone/x: it cannot be written\n")
            self.case("a folder as a file", run + ["t.csv", "-e", "count", flag, "folder"], 3, "4\n",
                      "sideways: refused 13\nfolder: a folder, wanted a file\n")
        self.case("what explains a kind", ["explain", "2"], 0, ANY, "")
        if "without a kind is an int" not in self.call(["explain", "2"])[1]:
            raise Wrong("WRONG: explain 2 says nothing of a name without a kind")

    # What the columns of a table have

    def descriptions(self):
        self.case("a description", ["describe", "cities.csv"], 0,
                  "rows 3\n\nname   kind  distinct  least  greatest\ncity   text  2         -      -\n"
                  "n      int   3         1      3\nprice  fix2  3         -0.25  7.50\nok     flag  2         false  true\n"
                  "\nmost frequent of city\n2 'Oslo'\n1 'Bergen, \"B\"'\n", "")
        self.case("a description of standard input", ["describe", "-"], 0,
                  "rows 4\n\nname  kind  distinct  least  greatest\na     int   3         3      20\nb     int   4         2      8\n"
                  "c     int   2         0      1\n", "", TABLE)
        got = self.case("a description as JSON", ["describe", "cities.csv", "--output", "json"], 0, ANY, "")
        wanted = {"rows": 3, "attributes": [
            {"name": "city", "kind": "text", "distinct": 2, "frequent": [{"text": "Oslo", "count": 2}, {"text": "Bergen, \"B\"", "count": 1}]},
            {"name": "n", "kind": "int", "distinct": 3, "least": 1, "greatest": 3},
            {"name": "price", "kind": "fix2", "distinct": 3, "least": -0.25, "greatest": 7.5},
            {"name": "ok", "kind": "flag", "distinct": 2, "least": False, "greatest": True}]}
        if json.loads(got[1]) != wanted:
            raise Wrong("WRONG: a description as JSON: %s" % got[1])
        self.case("a description of a bad table", ["describe", "bad.csv", "--all-faults"], 2, "", ANY)
        self.case("a description of none", ["describe", "none.csv"], 2, "", "sideways: refused 12\nnone.csv: there is no such file\n")
        self.case("a description of a folder", ["describe", "folder"], 2, "", "sideways: refused 12\nfolder: a folder, wanted a file\n")
        self.refused("a description of no file", ["describe"], "required")
        self.ended("a description of standard input that cannot be read", ["describe", "-"], "stdin", self.folder, 2,
                   b"sideways: refused 12\nstandard input: it cannot be read\n")
        for form in ("table", "json"):
            words = ["describe", "t.csv", "--output", form]
            self.ended("a description to a full device, as %s" % form, words, "stdout", "/dev/full", 3, FULL)
            self.gone("a description whose reader is gone, as %s" % form, words)
        self.refused("a description in a form that is none", ["describe", "t.csv", "--output", "csv"], "csv")

    def described(self):
        """Random tables: a description in each form tells what Python finds in them."""
        r = random.Random(7)
        edges = (0, 0, 1, -1, 7, 10, 2 ** 63 - 1, -2 ** 63)
        texts = ("", "Oslo", "it's", 'a "b"', "a,b", "\u00e9t\u00e9", "NA", "true")

        def shown(kind, value):
            if kind.startswith("fix"):
                places = int(kind[3:])
                digits = str(abs(value)).rjust(places + 1, "0")
                return ("-" if value < 0 else "") + digits[:-places] + "." + digits[-places:]
            return {"int": str, "flag": lambda flag: "ft"[flag] + ("alse", "rue")[flag], "text": str}[kind](value)

        for turn in range(60):
            kinds = [r.choice(("int", "fix1", "fix6", "flag", "text")) for _ in range(r.randint(1, 8))]
            many = r.choice((0, 1, 2, 30, 300))
            cells = [[r.choice(texts) + str(r.randrange(3)) if kind == "text" else r.randrange(2) if kind == "flag"
                      else r.choice(edges) if r.random() < 0.3 else r.randrange(-20, 20) for _ in range(many)] for kind in kinds]
            text = io.StringIO()
            writer = csv.writer(text, lineterminator="\n")
            writer.writerow("%s:%s" % ("abcdefgh"[place] * (place + 1), kind) for place, kind in enumerate(kinds))
            writer.writerows([shown(kinds[place], column[row]) for place, column in enumerate(cells)] for row in range(many))
            lines, frequent, attributes = [["name", "kind", "distinct", "least", "greatest"]], "", []
            for place, (kind, column) in enumerate(zip(kinds, cells)):
                name, ends = "abcdefgh"[place] * (place + 1), [min(column), max(column)] if column and kind != "text" else []
                lines.append([name, kind, str(len(set(column)))] + ([shown(kind, end) for end in ends] or ["-", "-"]))
                one = {"name": name, "kind": kind, "distinct": len(set(column))}
                if kind == "text":
                    most = collections.Counter(column).most_common(8)
                    if most:
                        frequent += "\nmost frequent of %s\n" % name + "".join("%d '%s'\n" % (count, of.replace("'", "''")) for of, count in most)
                    one["frequent"] = [{"text": of, "count": count} for of, count in most]
                else:
                    one["least"], one["greatest"] = [json.loads(shown(kind, end)) for end in ends] or [None, None]
                attributes.append(one)
            wide = [max(len(line[place]) for line in lines) for place in range(4)]
            table = "".join("  ".join([word.ljust(width) for word, width in zip(line, wide)] + line[4:]) + "\n" for line in lines)
            self.case("the description of a random table", ["describe", "-"], 0, "rows %d\n\n%s%s" % (many, table, frequent), "", text.getvalue().encode())
            got = self.case("the same as JSON", ["describe", "-", "--output", "json"], 0, ANY, "", text.getvalue().encode())
            if json.loads(got[1]) != {"rows": many, "attributes": attributes} or got[1].count("\n") != 1:
                raise Wrong("WRONG: the description of a random table as JSON:\n%s\n%r" % (got[1], attributes))

    # Replies in other forms

    def forms(self):
        run = ["run", "--table", "cities.csv"]
        calls = ["-e", "# a comment", "-e", "select city, price where ok = true", "-e", "---", "-e", "sum price", "-e", "min n where n > 9",
                 "-e", "delete where n < 3", "-e", "insert 'it''s', 9, 1, false", "-e", "delete 77", "-e", "select city"]
        got = self.case("replies as JSON", run + calls + ["--output", "json"], 0, ANY, "")
        told = [json.loads(line) for line in got[1].splitlines()]
        wanted = [
            (1, 1, 2, "select city, price where ok >= true and ok <= true",
             {"columns": ["key", "city", "price"], "rows": [[1, "Oslo", 7.5], [3, "Oslo", 3]]}),
            (2, 2, 4, "sum price", {"sum": 10.25}), (3, 2, 5, "min n where n > 9", {"min": None}),
            (4, 2, 6, "delete where n < 3", {"removed": 2}), (5, 2, 7, "insert 'it''s', 9, 1.00, false", {"key": 4}),
            (6, 2, 8, "delete 77", {"removed": 0}),
            (7, 2, 9, "select city", {"columns": ["key", "city"], "rows": [[3, "Oslo"], [4, "it's"]]})]
        if told != [dict(zip(("number", "block", "line", "call", "reply"), one)) for one in wanted]:
            raise Wrong("WRONG: replies as JSON:\n%s" % got[1])
        got = self.case("rows as records", run + ["-e", "select city, n", "--output", "csv"], 0, ANY, "")
        if list(csv.reader(io.StringIO(got[1]))) != [["key", "city", "n"], ["1", "Oslo", "1"], ["2", 'Bergen, "B"', "2"], ["3", "Oslo", "3"]]:
            raise Wrong("WRONG: rows as records:\n%s" % got[1])
        self.case("two replies as records", run + ["-e", "count", "-e", "max price", "--output", "csv"], 0, "count\n3\n\nmax\n7.50\n", "")
        table = self.case("the last reply as a table", run + ["-e", "delete where ok = false", "-e", "select n, city", "--output", "table"], 0,
                          "n:int,city:text\n1,Oslo\n3,Oslo\n", "")[1]
        self.case("which is read back", ["run", "--table", "-", "-e", "select city"], 0, "1: 'Oslo'\n2: 'Oslo'\n(2 rows)\n", "", table.encode())
        whole = self.case("a whole table", run + ["-e", "select city, n, price, ok", "--output", "table"], 0, ANY, "")[1]
        again = self.case("is itself, once it was read", ["run", "--table", "-", "-e", "select city, n, price, ok", "--output", "table"], 0,
                          whole, "", whole.encode())
        assert again
        self.case("a table of a count", run + ["-e", "count", "--output", "table"], 2, "",
                  "sideways: refused 3 line 1 why Word\nargument 1: --output table wants a select as the last call, of columns that differ\n")
        self.case("a table of one column twice", run + ["-e", "select n, n", "--output", "table"], 2, "", ANY)
        self.case("a table of no call", run + ["-e", "# none", "--output", "table"], 2, "", ANY)
        for form in ("lines", "csv", "json", "table"):
            words = run + calls + ["--output", form]
            self.ended("replies to a full device, as %s" % form, words, "stdout", "/dev/full", 3, FULL)
            self.gone("replies whose reader is gone, as %s" % form, words)

    # Orders of logs' calls, and from which records the entries came

    def logs(self, key):
        """Two logs, in which the first insert is given this key."""
        rows = "1: 7\n2: 8\n3: 5\n%s: 1\n(4 rows)" % key
        (self.folder / "one.csv").write_text('session,start,end,call,reply\n1,0,1,"insert 5, 1, 1",key %s\n1,2,3,select b where a < 13,"%s"\n'
                                             % (key, rows))
        (self.folder / "two.csv").write_text("session,start,end,call,reply\n2,4,5,delete %s,removed\n" % key)

    def history(self, key):
        entries = [{"call": "insert 5, 1, 1", "reply": ["key %s" % key], "session": 1},
                   {"call": "select b where a < 13", "reply": ["1: 7", "2: 8", "3: 5", "%s: 1" % key, "(4 rows)"], "session": 1},
                   {"call": "delete %s" % key, "reply": ["removed"], "session": 2}]
        rows = [[12, 7, 1], [3, 8, 0], [12, 5, 1], [20, 2, 0]]
        whole = {"attributes": ["a:int", "b:int", "c:int"], "entries": entries, "format": 1, "limit": 1048576, "rows": rows}
        return json.dumps(whole, sort_keys=True, separators=(",", ":"))

    def origins(self):
        self.logs(5)
        self.case("an order", ["order", "--table", "t.csv", "--where", "w.csv", "one.csv", "two.csv"], 0, self.history(5), "")
        (self.folder / "h.json").write_text(self.history(5).replace("5: 1", "5: 2"))
        told = ["not legal: entry 2", "entry 2, session 1: select b where a < 13", "given, line 4 of 5: 5: 2", "the list's, line 4 of 5: 5: 1",
                "its rows were changed last by", "  entry 1, session 1: insert 5, 1, 1"]
        self.case("why a history is not legal", ["check", "h.json", "--explain"], 1, "\n".join(told) + "\n", "")
        told.insert(2, "  from one.csv record 2")
        told.append("    from one.csv record 1")
        self.case("and from which records", ["check", "h.json", "--explain", "--from-logs", "w.csv"], 1, "\n".join(told) + "\n", "")
        self.case("and from a list that is none", ["check", "h.json", "--explain", "--from-logs", "none.csv"], 2, "", ANY)
        self.refused("records alone", ["check", "h.json", "--from-logs", "w.csv"], "--explain")
        for old, new, told in (('"session":2', '"note":1,"session":2', 'member "note" is not one of call, reply, session'),
                               (',"session":2', "", 'member "session" is missing'),
                               ('"session":2', '"session":0', 'member "session" is no whole number from 1 to 1024')):
            (self.folder / "odd.json").write_text(self.history(5).replace(old, new))
            for words in (["check", "odd.json"], ["check", "odd.json", "--explain"]):
                self.case("an entry of a history: %s" % told, words, 2, "",
                          "sideways: refused 3 line 3 why History\nodd.json entry 3: %s\n" % told)

    def keys(self):
        self.logs(9)
        words = ["order", "--table", "t.csv", "one.csv", "two.csv"]
        self.case("keys that are counted", words, 1, "",
                  "no order: 0 of 3 calls were placed at best\nthe next is one.csv record 1, session 1, from 0 to 1: insert 5, 1, 1\n"
                  "  given: key 9\n  the list gives: key 5\n")
        self.case("any keys", words + ["--keys", "any"], 0, self.history(5), "")
        one = (self.folder / "one.csv").read_bytes()
        self.case("a log of standard input", ["order", "--table", "t.csv", "-", "two.csv", "--keys", "any"], 0, self.history(5), "", one)
        self.case("the table of standard input", ["order", "--table", "-", "one.csv", "two.csv", "--keys", "any"], 0, self.history(5), "", TABLE)
        self.case("a log of standard input that is none", ["order", "--table", "t.csv", "-"], 2, "",
                  "standard input line 1, header: wanted the columns session, start, end, call, reply\n", b"x\n")
        for names in (["-", "-", "one.csv"], ["t.csv", "-", "-"]):
            self.refused("standard input twice", ["order", "--table"] + names, "of the table and the logs only one can be standard input")
        self.refused("keys that are neither", words + ["--keys", "some"], "counted")

    def flaws(self):
        """What is wrong with a log: its line, the field, and what was wanted there."""
        head = "session,start,end,call,reply\n"
        for name, log, told in (
                ("another header", "session,start,end,call\n", "line 1, header: wanted the columns session, start, end, call, reply"),
                ("a field too few", head + "1,0,1,count\n", "line 2, record: wanted as many fields as the header has"),
                ("bytes that are no UTF-8", head.encode() + b"1,0,1,count,\xff\n", "line 2, record: wanted UTF-8"),
                ("no session", head + "0,0,1,count,4\n", "line 2, session: wanted a whole number from 1 to 1024"),
                ("a session too many", head + "1025,0,1,count,4\n", "line 2, session: wanted a whole number from 1 to 1024"),
                ("no time", head + "1,0,1,count,4\n1,now,1,count,4\n",
                 "line 3, start and end: wanted whole numbers from 0 to 18446744073709551615"),
                ("an end before its start", head + "1,2,1,count,4\n", "line 2, end: wanted a time that is not before the start"),
                ("no call", head + "1,0,1,,4\n", "line 2, call: wanted a call, and there is none"),
                ("no call that can be read", head + "1,0,1,fetch,4\n", "line 2, call: wanted a call of a script, and it has none: Word"),
                ("a call of another table", head + "1,0,1,count where d = 1,4\n", "line 2, call: wanted an attribute of the table, and d is none")):
            (self.folder / "odd.csv").write_bytes(log if isinstance(log, bytes) else log.encode())
            self.case("a log with %s" % name, ["order", "--table", "t.csv", "odd.csv"], 2, "", "odd.csv %s\n" % told)
        self.case("a log that is not there", ["order", "--table", "t.csv", "none.csv"], 2, "",
                  "sideways: refused 12\nnone.csv: there is no such file\n")
        self.case("a log that is a folder", ["order", "--table", "t.csv", "folder"], 2, "", "sideways: refused 12\nfolder: a folder, wanted a file\n")
        self.case("a table that is not there", ["order", "--table", "none.csv", "odd.csv"], 2, "",
                  "sideways: refused 12\nnone.csv: there is no such file\n")
        self.case("a table that is a folder", ["order", "--table", "folder", "odd.csv"], 2, "",
                  "sideways: refused 12\nfolder: a folder, wanted a file\n")
        self.case("a history of standard input that is none", ["check", "-"], 2, "", "sideways: refused 3 line 0 why History\n"
                  "standard input: it is no history file as run --history writes one\n", b"x\n")
        self.logs(5)
        order = ["order", "--table", "t.csv", "one.csv", "two.csv"]
        self.ended("an order to a full device", order, "stdout", "/dev/full", 3, FULL)
        self.gone("an order whose reader is gone", order)
        self.case("origins to a file in no folder", order + ["--where", "none/w.csv"], 3, self.history(5),
                  "sideways: refused 13\nnone/w.csv: it cannot be written\n")
        (self.folder / "h.json").write_text(self.history(5))
        self.ended("a verdict to a full device", ["check", "h.json"], "stdout", "/dev/full", 3, FULL)
        self.gone("a verdict whose reader is gone", ["check", "h.json", "--explain"])
        self.case("a history that is none", ["check", "t.csv"], 2, "",
                  "sideways: refused 3 line 0 why History\nt.csv: it is no history file as run --history writes one\n")
        self.case("a history that is not there", ["check", "none.json"], 2, "", "sideways: refused 12\nnone.json: there is no such file\n")
        self.case("a history that is a folder", ["check", "folder"], 2, "", "sideways: refused 12\nfolder: a folder, wanted a file\n")
        self.case("a history from logs that are told nowhere", ["check", "--explain", "--from-logs", "none.csv", "t.csv"], 2, "",
                  "sideways: refused 12\nnone.csv: there is no such file\n")

    # What is told of odd files

    def files(self):
        for name, data in (("wide.csv", b"\xff\xfe" + "a:int\n1\n".encode("utf-16-le")), ("hash.csv", b"# made today\na:int\n1\n"),
                           ("open.csv", b'a:int,b:text\n1,"x\ny"\n2,"z\n3,u\n'), ("short.csv", b'a:int,b:text\n1\n2,"z\n3,u\n')):
            (self.folder / name).write_bytes(data)
        for words in (["describe"], ["run", "-e", "count", "--table"]):
            self.case("a table in UTF-16", words + ["wide.csv"], 2, "", "sideways: refused 2 record 0 field 1\n"
                      "wide.csv: the file begins as one in UTF-16 does, of which iconv -f UTF-16 -t UTF-8 makes UTF-8\n")
            self.case("a table behind a comment", words + ["hash.csv"], 2, "", "sideways: refused 2 record 0 field 1\nhash.csv line 1, column 1: '#' stands "
                      "in a name, which has letters, digits and _: '# made today'; a table has no comments, and sed '/^#/d' takes such lines out\n")
        unclosed = "%s line %d: a quote opens there that nothing closes\n"
        control = "open.csv line 2, b:text: byte 2 is a control byte, which no text has: 'x\\ny'\n"
        self.case("a quote that nothing closes", ["describe", "open.csv"], 2, "", "sideways: refused 2 record 1 field 2\n" + control + unclosed % ("open.csv", 4))
        missing = "short.csv line 2: 1 field, the header has 2: b:text is missing\n"
        self.case("such a quote behind a short record", ["run", "--table", "short.csv", "-e", "count"], 2, "",
                  "sideways: refused 2 record 1 field 2\n" + missing + unclosed % ("short.csv", 3))
        self.case("such a quote under a header", ["run", "--table", "short.csv", "--header", "a,b:text", "-e", "count"], 2, "",
                  "sideways: refused 2 record 1 field 2\nshort.csv line 2: 1 field, --header has 2: b:text is missing\n" + unclosed % ("short.csv", 3))
        self.case("such a quote among all faults", ["run", "--table", "short.csv", "-e", "count", "--all-faults"], 2, "",
                  "sideways: refused 2 record 1 field 2\n" + unclosed % ("short.csv", 3) + missing
                  + "short.csv line 3, b:text: byte 2 is a control byte, which no text has: 'z\\n3,u\\n'\nshort.csv: 2 faults\n")

    # Where standard input is closed or standard output full, and the usage of a command

    def streams(self):
        for words in (["run", "--table", "t.csv", "--script", "-"], ["run", "--table", "-", "-e", "count"], ["describe", "-"], ["check", "-"],
                      ["run", "--table", "t.csv", "--script", "-", "--threads", "--history", "h.json"], ["shell", "t.csv"],
                      ["import", "-"], ["order", "--table", "-", "one.csv"], ["order", "--table", "t.csv", "-"]):
            self.closed("standard input that is closed: %s" % " ".join(words), words)
        self.ended("an explanation to a full device", ["explain", "3"], "stdout", "/dev/full", 3, FULL)
        self.gone("an explanation whose reader is gone", ["explain"])
        for words in (["run", "--table", "-", "--script", "-"], ["describe", "t.csv", "--header", "a\nb"], ["import", "t.csv", "--delimiter", ";;"],
                      ["order", "--table", "-", "-"], ["shell", "-"]):
            self.refused("the usage of %s" % words[0], words, "\n\nUsage: sideways %s " % words[0])

    # Help

    def helps(self):
        for words, statuses in ((["--help"], "\nExit status:\n  0  "), (["run", "--help"], "\nStatus 0: "), (["check", "--help"], "\nStatus 0: "),
                                (["order", "--help"], "\nStatus 0: "), (["shell", "--help"], "\nStatus 0: "), (["describe", "--help"], ""),
                                (["explain", "--help"], "")):
            got = self.case("the help of %s" % words[0], words, 0, ANY, "")
            if "Examples:\n" not in got[1] or statuses not in got[1]:
                raise Wrong("WRONG: the help of %s has no examples, or no statuses" % words[0])


    def version(self):
        got = self.case("the version", ["--version"], 0, ANY, "")
        if shutil.which("rt"):
            kit = subprocess.run(["rt", "version"], capture_output=True, text=True, check=True).stdout.strip()
            if not got[1].startswith("sideways 0.1.0\nproved with ") or not got[1].endswith("%s\n" % kit[kit.index("logic "):]):
                raise Wrong("WRONG: the version does not tell the logic of %s: %r" % (kit, got[1]))


def main():
    words = argparse.ArgumentParser(description=__doc__, formatter_class=argparse.RawDescriptionHelpFormatter)
    words.add_argument("--program", default=TOP / "crates/sideways/out/sideways")
    given = words.parse_args()
    with tempfile.TemporaryDirectory() as folder:
        cases = Cases(Path(given.program).resolve(), folder)
        try:
            for part in (cases.inputs, cases.headers, cases.imports, cases.words, cases.descriptions, cases.described, cases.forms, cases.origins,
                         cases.keys, cases.flaws, cases.files, cases.streams, cases.helps, cases.version):
                part()
        except Wrong as wrong:
            print(wrong)
            return 1
    print("%d cases of words passed" % cases.cases)
    return 0


if __name__ == "__main__":
    sys.exit(main())
