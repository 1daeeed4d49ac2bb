#!/usr/bin/env python3
"""PostgreSQL as a store of rows: some sessions make calls on one table at an isolation level, and each writes a log of its own.
Use: python3 examples/stores/postgres.py TABLE FOLDER [--level serializable] [--sessions 4] [--calls 200] [--seed 1]
TABLE is a CSV of whole numbers, the first line the names. The cluster lies in a temporary folder, listens on a socket there
alone, and goes away at the end; its programs are sought beside `pg_config --bindir`, and run as `postgres` where this runs as
root. Levels: "read committed", "repeatable read", serializable. A call that the level makes fail is made again, so its log
begins at the first try. Keys come from a counter that an insert locks, so that they are given in the order of the commits."""
import argparse, csv, os, random, shutil, subprocess, tempfile, threading, time
from sqlite import random_call, read_table

AS_OWNER = ["runuser", "-u", "postgres", "--"] if os.getuid() == 0 else []

def start_cluster(bin_folder, folder):
    options = f"-c listen_addresses='' -c unix_socket_directories='{folder}' -c fsync=off"
    for words in [["initdb", "-A", "trust"], ["pg_ctl", "-w", "-l", f"{folder}/log", "-o", options, "start"]]:
        subprocess.run([*AS_OWNER, f"{bin_folder}/{words[0]}", "-D", f"{folder}/data", *words[1:]], check=True, stdout=subprocess.DEVNULL)

class Psql:
    def __init__(self, folder, level):
        words = ["psql", "-XAt", "-v", "VERBOSITY=sqlstate", "-h", folder, "-d", "postgres"]
        self.process = subprocess.Popen(AS_OWNER + words, stdin=subprocess.PIPE, stdout=subprocess.PIPE, stderr=subprocess.STDOUT, text=True)
        self.ask(f"SET default_transaction_isolation = '{level}'")
    def ask(self, sql):
        print(sql + ";\n\\echo --done--", file=self.process.stdin, flush=True)
        return list(iter(lambda: self.process.stdout.readline().rstrip("\n"), "--done--"))
    def retry(self, sql):
        while True:
            lines = self.ask(sql)
            if not {"ERROR:  40001", "ERROR:  40P01"} & set(lines):
                return lines

def statement(kind, sql, names):
    if kind == "insert":
        cells = sql.split("VALUES (")[1].rstrip(")")
        return f"WITH k AS (UPDATE counter SET n = n + 1 RETURNING n) INSERT INTO t SELECT n, {cells} FROM k RETURNING key"
    return sql.replace("SELECT key, ", "SELECT key || ': ' || concat_ws(', ', ").replace(" FROM", ") FROM") if kind == "rows" else sql

def reply_of(kind, lines):
    if kind == "insert":
        return f"key {lines[0]}"
    if kind in ("delete", "sweep"):
        gone = int(lines[0].split()[1])
        return f"({gone} removed)" if kind == "sweep" else "removed" if gone else "no such key"
    return "\n".join(lines + [f"({len(lines)} rows)"]) if kind == "rows" else lines[0]

def session(number, cluster, names, most, count, args):
    rng, psql = random.Random(args.seed * 1000 + number), Psql(cluster, args.level)
    with open(f"{args.folder}/{number}.csv", "w", newline="") as file:
        (log := csv.writer(file, lineterminator="\n")).writerow(["session", "start", "end", "call", "reply"])
        for made in range(args.calls):
            kind, call, sql = random_call(rng, names, most, count + made * args.sessions)
            start = time.monotonic_ns()
            lines = psql.retry(statement(kind, sql, names))
            log.writerow([number, start, time.monotonic_ns(), call, reply_of(kind, lines)])
    psql.process.communicate()

if __name__ == "__main__":
    parser = argparse.ArgumentParser()
    parser.add_argument("table"), parser.add_argument("folder"), parser.add_argument("--level", default="serializable")
    for word, usual in [("--sessions", 4), ("--calls", 200), ("--seed", 1)]:
        parser.add_argument(word, type=int, default=usual)
    args = parser.parse_args()
    names, rows = read_table(args.table)
    os.makedirs(args.folder, exist_ok=True)
    bin_folder = subprocess.run(["pg_config", "--bindir"], capture_output=True, text=True, check=True).stdout.strip()
    cluster = tempfile.mkdtemp(prefix="pg")
    shutil.chown(cluster, "postgres") if AS_OWNER else None
    try:
        start_cluster(bin_folder, cluster)
        first = Psql(cluster, "read committed")
        first.ask(f"CREATE TABLE t(key bigint PRIMARY KEY, {', '.join(name + ' bigint' for name in names)})")
        first.ask(f"CREATE TABLE counter AS SELECT {len(rows)} AS n")
        [first.ask(f"INSERT INTO t VALUES ({key}, {', '.join(map(str, row))})") for key, row in enumerate(rows, 1)]
        given = (cluster, names, max(map(max, rows)), len(rows), args)
        made = [threading.Thread(target=session, args=(n + 1, *given)) for n in range(args.sessions)]
        [thread.start() for thread in made], [thread.join() for thread in made]
        first.process.communicate()
    finally:
        subprocess.run([*AS_OWNER, f"{bin_folder}/pg_ctl", "-D", f"{cluster}/data", "-m", "fast", "stop"], stdout=subprocess.DEVNULL)
        shutil.rmtree(cluster)
