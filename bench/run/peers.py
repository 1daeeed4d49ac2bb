#!/usr/bin/env python3
"""peers.py PROGRAM FOLDER ROUNDS: what calls take of PROGRAM, of the C++ peer in its three modes where it is built in FOLDER, and of whatever of
SQLite, ClickHouse, numpy and pandas is there, over the table t.csv and the scripts none.txt (without a call), count.txt, sum.txt and so on of FOLDER.

Each side is a process that reads the table, answers the script and writes the replies' lines. It is run with the script and without a call, one right
after the other, and the difference counts, the median of ROUNDS; a side that has taken half a minute over a script is run no more. So what a side
makes in order to answer, an index or a sorted table, counts as calls. Prints a table in Markdown: PROGRAM's seconds, and how many times these each
side takes, ? where a small table or a busy machine makes the difference one of noise. Each reply is compared with PROGRAM's; the first that differs ends it.

peers.py --as NAME TABLE SCRIPT writes the replies of one side, by its name."""
import contextlib, csv, functools, http.client, itertools, operator, os, re, shutil, socket, statistics, subprocess, sys, tempfile, time

MIXES = {"count": "counts", "sum": "sums", "select": "selects of two", "multi": "second conditions", "update": "3 inserts, 2 removals, 5 sums"}
CALL = re.compile(r"(count|sum|select|insert|delete) ?([\w, -]*?)(?: ?where (.*))?")
BOUND = re.compile(r"(\w) (>=|<=|<|>) (-?\d+)")
SIGNS = {">=": operator.ge, ">": operator.gt, "<": operator.lt, "<=": operator.le}
ENOUGH = 30  # seconds


def calls_of(path):
    """Of each line of a script its first word, the words behind it, and its bounds, each an attribute, a sign and a number."""
    for line in open(path):
        kind, words, where = CALL.fullmatch(line.strip()).groups()
        yield kind, re.findall(r"[\w-]+", words), [(a, sign, int(v)) for a, sign, v in BOUND.findall(where or "")]


def names_of(table):
    with open(table) as file:
        return [word.split(":")[0] for word in next(csv.reader(file))]


def sql_of(kind, names, bounds, table="t"):
    what = {"count": "count(*)", "sum": "sum({})"}.get(kind, "k, {}").format(", ".join(names))
    where = " and ".join(f"{a} {sign} {v}" for a, sign, v in bounds)
    return f"select {what} from {table} where {where}" + (" order by k" if kind == "select" else "")


class Sqlite:
    """In memory, by Python's module, a row's key its primary key."""

    def __init__(self, table):
        import sqlite3
        self.store, names = sqlite3.connect(":memory:"), names_of(table)
        self.store.execute("create table t (k integer primary key, " + ", ".join(name + " integer" for name in names) + ")")
        self.marks = "?, " * len(names) + "?"
        with open(table) as file:
            records = csv.reader(file)
            next(records)
            self.store.executemany(f"insert into t values ({self.marks})", ((key, *cells) for key, cells in enumerate(records, 1)))
        self.keys = self.store.execute("select count(*) from t").fetchone()[0]

    def begin(self):
        pass

    def number(self, *call):
        return self.store.execute(sql_of(*call)).fetchone()[0]

    def rows(self, names, bounds):
        return self.store.execute(sql_of("select", names, bounds)).fetchall()

    def insert(self, cells):
        self.keys += 1
        self.store.execute(f"insert into t values ({self.marks})", (self.keys, *cells))
        return self.keys

    def delete(self, key):
        return self.store.execute("delete from t where k = ?", (key,)).rowcount > 0


class IndexedSqlite(Sqlite):
    def begin(self):
        self.store.execute("create index t_a on t (a)")


class Numpy:
    """An array a column, with room for more, and a mask of the rows that are left, once one is gone."""

    def __init__(self, table):
        import numpy
        self.numpy, self.names, self.live = numpy, names_of(table), None
        self.cells = numpy.ascontiguousarray(numpy.loadtxt(table, numpy.int64, delimiter=",", skiprows=1, unpack=True, ndmin=2))
        self.keys = self.cells.shape[1]

    def begin(self):
        pass

    def column(self, name):
        return self.cells[self.names.index(name)][:self.keys]

    def mask(self, bounds):
        masks = [SIGNS[sign](self.column(name), v) for name, sign, v in bounds]
        return functools.reduce(operator.and_, masks + ([] if self.live is None else [self.live[:self.keys]]))

    def number(self, kind, names, bounds):
        mask = self.mask(bounds)
        return self.numpy.count_nonzero(mask) if kind == "count" else self.column(names[0])[mask].sum()

    def rows(self, names, bounds):
        places = self.numpy.flatnonzero(self.mask(bounds))
        return zip((places + 1).tolist(), *[self.column(name)[places].tolist() for name in names])

    def insert(self, cells):
        if self.keys == self.cells.shape[1]:
            self.cells = self.numpy.concatenate([self.cells, self.numpy.zeros_like(self.cells)], 1)
            self.live = self.numpy.ones(self.cells.shape[1], bool) if self.live is None else self.numpy.append(self.live, self.live | True)
        self.cells[:, self.keys] = cells
        self.keys += 1
        return self.keys

    def delete(self, key):
        if self.live is None:
            self.live = self.numpy.ones(self.cells.shape[1], bool)
        is_there = 0 < key <= self.keys and bool(self.live[key - 1])
        if is_there:
            self.live[key - 1] = False
        return is_there


class Pandas:
    """A frame whose index has the keys; a row comes by `loc` and goes by `drop`."""

    def __init__(self, table):
        import pandas
        self.frame = pandas.read_csv(table)
        self.frame.columns = names_of(table)
        self.frame.index += 1
        self.keys = len(self.frame)

    def begin(self):
        pass

    def mask(self, bounds):
        return functools.reduce(operator.and_, (SIGNS[sign](self.frame[name], v) for name, sign, v in bounds))

    def number(self, kind, names, bounds):
        mask = self.mask(bounds)
        return mask.sum() if kind == "count" else self.frame.loc[mask, names[0]].sum()

    def rows(self, names, bounds):
        found = self.frame.loc[self.mask(bounds), names]
        return zip(found.index.tolist(), *[found[name].tolist() for name in names])

    def insert(self, cells):
        self.keys += 1
        self.frame.loc[self.keys] = cells
        return self.keys

    def delete(self, key):
        is_there = key in self.frame.index
        if is_there:
            self.frame.drop(index=key, inplace=True)
        return is_there


class ClickHouse:
    """A table in the memory of a server that was started for it, asked through its HTTP port; no single row goes from such a table."""
    engine, asked = "Memory", "t"

    def __init__(self, table):
        self.server = http.client.HTTPConnection("127.0.0.1", int(os.environ["CLICKHOUSE"]))
        self.cells = "k UInt64, " + ", ".join(name + " Int64" for name in names_of(table))
        self.ask("drop table if exists t")
        self.ask("drop table if exists o")
        self.ask(f"create table t ({self.cells}) engine = Memory")
        with open(os.path.dirname(table) + "/keyed.csv", "rb") as file:
            self.ask(b"insert into t format CSV\n" + file.read())

    def begin(self):
        pass

    def ask(self, text):
        self.server.request("POST", "/", text if isinstance(text, bytes) else text.encode())
        reply = self.server.getresponse()
        told = reply.read().decode()
        assert reply.status == 200, told
        return told

    def number(self, *call):
        return self.ask(sql_of(*call, self.asked))

    def rows(self, names, bounds):
        told = self.ask(sql_of("select", names, bounds, self.asked))
        return (tuple(map(int, line.split("\t"))) for line in told.splitlines())


class OrderedClickHouse(ClickHouse):
    asked = "o"

    def begin(self):
        self.ask(f"create table o ({self.cells}) engine = MergeTree() order by a")
        self.ask("insert into o select * from t")


SIDES = {
    "SQLite, an index": (IndexedSqlite, "sqlite3"),
    "SQLite": (Sqlite, "sqlite3"),
    "ClickHouse, ordered": (OrderedClickHouse, "http"),
    "ClickHouse": (ClickHouse, "http"),
    "numpy": (Numpy, "numpy"),
    "pandas": (Pandas, "pandas"),
}


def replies(side, script):
    """Each reply's lines, as the program writes them."""
    for i, (kind, words, bounds) in enumerate(calls_of(script)):
        if i == 0:
            side.begin()
        if kind == "select":
            form = "%d: " + ", ".join(["%d"] * len(words)) + "\n"
            lines = list(map(form.__mod__, side.rows(words, bounds)))
            yield "".join(lines) + f"({len(lines)} rows)\n"
        elif kind == "insert":
            yield f"key {side.insert([int(word) for word in words])}\n"
        elif kind == "delete":
            yield "removed\n" if side.delete(int(words[0])) else "no such key\n"
        else:
            yield f"{int(side.number(kind, words, bounds) or 0)}\n"


def server_words():
    """How a server of ClickHouse is started; none where none is installed."""
    if shutil.which("clickhouse-server"):
        return ["clickhouse-server"]
    return ["clickhouse", "server"] if shutil.which("clickhouse") else None


def free_port():
    with socket.socket() as taken:
        taken.bind(("127.0.0.1", 0))
        return taken.getsockname()[1]


def listens(port):
    """Whether somebody listens there within half a minute."""
    for _ in range(300):
        with contextlib.suppress(OSError), socket.create_connection(("127.0.0.1", port), 1):
            return True
        time.sleep(0.1)
    return False


@contextlib.contextmanager
def clickhouse():
    """The port of a server on the loopback that ends with this; none where there is none."""
    words = server_words()
    if not words:
        yield None
        return
    port = free_port()
    with tempfile.TemporaryDirectory() as room:
        paths = "".join(f"<{name}>{room}/{name}/</{name}>" for name in ("path", "tmp_path", "user_files_path", "format_schema_path"))
        with open(room + "/config.xml", "w") as file:
            file.write(f"<yandex><logger><level>warning</level><log>{room}/log</log><errorlog>{room}/errors</errorlog></logger>"
                       f"<http_port>{port}</http_port><listen_host>127.0.0.1</listen_host>{paths}<users_config>{room}/users.xml</users_config>"
                       "<default_profile>default</default_profile><default_database>default</default_database>"
                       "<mark_cache_size>5368709120</mark_cache_size></yandex>")
        with open(room + "/users.xml", "w") as file:
            file.write("<yandex><profiles><default/></profiles><quotas><default/></quotas><users><default><password></password>"
                       "<networks><ip>127.0.0.1</ip></networks><profile>default</profile><quota>default</quota></default></users></yandex>")
        server = subprocess.Popen([*words, f"--config-file={room}/config.xml"], stdout=subprocess.DEVNULL, stderr=subprocess.DEVNULL, cwd=room)
        try:
            yield port if listens(port) else None
        finally:
            server.terminate()
            server.wait()


def python_with(module):
    """A Python that has a module: PYTHON of the environment, this one, or the system's."""
    for path in filter(None, (os.environ.get("PYTHON"), sys.executable, "/usr/bin/python3")):
        if shutil.which(path) and subprocess.run([path, "-c", "import " + module], stderr=subprocess.DEVNULL).returncode == 0:
            return path


def sides_of(program, folder, port):
    """The sides that are there, each with the words that run it before its table and its script; and those that are not."""
    found = {"sideways": [program, "run", "--quiet", "--table", "{t}", "--script", "{s}"]}
    if os.path.exists(folder + "/peer"):
        found.update({name: [folder + "/peer", mode, "{t}", "{s}"] for name, mode in
                      (("C++, cracking", "crack"), ("C++, sorted at once", "sort"), ("C++, scanning", "scan"))})
    for name, (kind, module) in SIDES.items():
        python = python_with(module)
        if python and (port or not issubclass(kind, ClickHouse)):
            found[name] = [python, __file__, "--as", name, "{t}", "{s}"]
    missing = [name for name in ("C++, cracking", *SIDES) if name not in found]
    return found, missing


def timed_side(name, words, table, script):
    """The seconds and the lines of a run over a script."""
    words = [word.format(t=table, s=script) for word in words]
    try:
        seconds, _, text = timed(words)
    except AssertionError:
        sys.exit(f"{name} failed: {' '.join(words)}")
    return seconds, text.splitlines()


def same(name, mix, ours, theirs):
    """Ends where a reply differs from ours."""
    for number, (our, their) in enumerate(itertools.zip_longest(ours, theirs), 1):
        if our != their:
            sys.exit(f"the replies of {name} to {mix} differ at line {number}: {their}, the program's is {our}")


def measured(found, folder, mix, rounds):
    """Of each side that can answer a script the seconds that its calls took and those of a run without one, a pair for each round."""
    table, script, none = (f"{folder}/{name}" for name in ("t.csv", mix + ".txt", "none.txt"))
    pairs, expected = {name: [] for name in found if mix != "update" or "ClickHouse" not in name}, None
    for _ in range(rounds):
        for name, took in pairs.items():
            if sum(map(sum, took)) > ENOUGH:
                continue
            idle, _ = timed_side(name, found[name], table, none)
            busy, lines = timed_side(name, found[name], table, script)
            expected = expected or lines
            if lines != expected:
                same(name, mix, expected, lines)
            took.append((busy - idle, idle))
    return pairs


def compare(program, folder, rounds):
    many, number = (sum(1 for _ in open(f"{folder}/{name}")) for name in ("t.csv", "count.txt"))
    with clickhouse() as port:
        os.environ["CLICKHOUSE"] = str(port)
        if port:
            with open(folder + "/t.csv") as file, open(folder + "/keyed.csv", "w") as keyed:
                keyed.writelines(f"{key},{line}" for key, line in enumerate(itertools.islice(file, 1, None), 1))
        found, missing = sides_of(program, folder, port)
        taken = {}
        for mix in MIXES:
            print(f"peers: {mix}", file=sys.stderr, flush=True)
            taken[mix] = measured(found, folder, mix, rounds)
    told = lambda name, mix, part: statistics.median(pair[part] for pair in taken[mix][name]) if name in taken[mix] else None
    rows = {name: [told(name, "count", 1)] + [told(name, mix, 0) for mix in MIXES] for name in found}
    ours = rows.pop("sideways")
    print(f"| {many - 1:,} rows, {number:,} calls each | none | " + " | ".join(MIXES.values()) + " |\n|" + "---|" * (len(ours) + 1))
    print("| Sideways, seconds | " + " | ".join(f"{seconds:.3f}" for seconds in ours) + " |")
    shown = lambda seconds, our: "" if seconds is None else "?" if min(seconds, our) <= 0 else f"{seconds / our:.2f}"
    for name, row in rows.items():
        print(f"| {name} | " + " | ".join(map(shown, row, ours)) + " |")
    if missing:
        print("\nNot installed here: " + "; ".join(missing) + ".")


if __name__ == "__main__":
    if sys.argv[1] == "--as":
        kind, _ = SIDES[sys.argv[2]]
        for reply in replies(kind(sys.argv[3]), sys.argv[4]):
            sys.stdout.write(reply)
    else:
        from timed import timed
        compare(sys.argv[1], sys.argv[2], int(sys.argv[3]))
