#!/usr/bin/env python3
"""SQLite as a store of rows: some processes make calls on one database in WAL mode, and each writes a log of its own.
Use: python3 examples/stores/sqlite.py TABLE FOLDER [--processes 4] [--calls 500] [--seed 1] [--keys-again]
TABLE is a CSV of whole numbers, the first line the names. FOLDER gets the database and the logs 1.csv, 2.csv and so on;
`sideways order --table TABLE FOLDER/*.csv > h.json` looks for an order of the calls. With --keys-again the key column has
no AUTOINCREMENT, so that SQLite gives the greatest key again where its row is gone."""
import argparse, csv, multiprocessing, os, random, sqlite3, time

def read_table(path):
    with open(path, newline="") as file:
        records = list(csv.reader(file))
    return [name.split(":")[0] for name in records[0]], [[int(cell) for cell in r] for r in records[1:]]

def make_database(path, names, rows, keys_again):
    db = sqlite3.connect(path)
    db.execute("PRAGMA journal_mode = WAL")
    columns = ", ".join(f'"{name}" INTEGER' for name in names)
    db.execute(f"CREATE TABLE t(key INTEGER PRIMARY KEY {'' if keys_again else 'AUTOINCREMENT'}, {columns})")
    marks = ", ".join("?" for _ in names)
    db.executemany(f"INSERT INTO t({', '.join(names)}) VALUES ({marks})", rows)
    db.commit()
    db.close()

def random_call(rng, names, most, keys):
    """A call as a line of a script, and as SQL whose result the reply is made of."""
    name, low = rng.choice(names), rng.randint(0, most)
    where = f"where {name} >= {low} and {name} <= {low + rng.randint(0, 1 + most // 20)}"
    kind = rng.choices(["rows", "count", "sum", "insert", "delete", "sweep"], [30, 15, 15, 20, 15, 5])[0]
    if kind == "insert":
        cells = [rng.randint(0, most) for _ in names]
        marks = ", ".join(str(cell) for cell in cells)
        return kind, f"insert {marks}", f"INSERT INTO t({', '.join(names)}) VALUES ({marks})"
    if kind == "delete":
        key = rng.randint(1, keys)
        return kind, f"delete {key}", f"DELETE FROM t WHERE key = {key}"
    if kind == "sweep":
        return kind, f"delete {where}", f"DELETE FROM t {where}"
    if kind == "rows":
        return kind, f"select {', '.join(names)} {where}", f"SELECT key, {', '.join(names)} FROM t {where} ORDER BY key"
    if kind == "count":
        return kind, f"count {where}", f"SELECT count(*) FROM t {where}"
    return kind, f"sum {names[-1]} {where}", f"SELECT coalesce(sum({names[-1]}), 0) FROM t {where}"

def reply_of(kind, cursor):
    if kind == "insert":
        return f"key {cursor.lastrowid}"
    if kind == "delete":
        return "removed" if cursor.rowcount == 1 else "no such key"
    if kind == "sweep":
        return f"({cursor.rowcount} removed)"
    rows = cursor.fetchall()
    if kind == "rows":
        return "\n".join([f"{row[0]}: {', '.join(map(str, row[1:]))}" for row in rows] + [f"({len(rows)} rows)"])
    return str(rows[0][0])

def session(number, folder, names, most, count, args):
    rng = random.Random(args.seed * 1000 + number)
    db = sqlite3.connect(f"{folder}/rows.db", timeout=60, isolation_level=None)
    with open(f"{folder}/{number}.csv", "w", newline="") as file:
        log = csv.writer(file, lineterminator="\n")
        log.writerow(["session", "start", "end", "call", "reply"])
        for made in range(args.calls):
            kind, call, sql = random_call(rng, names, most, count + made * args.processes)
            start = time.monotonic_ns()
            reply = reply_of(kind, db.execute(sql))
            log.writerow([number, start, time.monotonic_ns(), call, reply])

if __name__ == "__main__":
    parser = argparse.ArgumentParser()
    parser.add_argument("table"), parser.add_argument("folder"), parser.add_argument("--keys-again", action="store_true")
    for word, usual in [("--processes", 4), ("--calls", 500), ("--seed", 1)]:
        parser.add_argument(word, type=int, default=usual)
    args = parser.parse_args()
    names, rows = read_table(args.table)
    os.makedirs(args.folder, exist_ok=True)
    make_database(f"{args.folder}/rows.db", names, rows, args.keys_again)
    most = max([cell for row in rows for cell in row], default=100)
    made = [multiprocessing.Process(target=session, args=(n + 1, args.folder, names, most, len(rows), args)) for n in range(args.processes)]
    [process.start() for process in made], [process.join() for process in made]
