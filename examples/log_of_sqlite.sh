#!/bin/sh
# SQLite as another store: makes a few calls on the table of a file with the columns a, b and c, and writes its log, a CSV of
# session, call and reply, in which the lines of a reply stand one below the other.
# Use: sh examples/log_of_sqlite.sh TABLE > LOG
# With `autoincrement` after TABLE, SQLite gives no key twice.
set -eu
sqlite3 :memory: <<SQL
CREATE TABLE opening(a INTEGER, b INTEGER, c INTEGER);
CREATE TABLE t(key INTEGER PRIMARY KEY ${2:-}, a INTEGER, b INTEGER, c INTEGER);
CREATE TABLE log(session INTEGER, call TEXT, reply TEXT);
.mode csv
.import --skip 1 '$1' opening
INSERT INTO t(a, b, c) SELECT a, b, c FROM opening ORDER BY rowid;
INSERT INTO t(a, b, c) VALUES (1, 9, 0);
INSERT INTO log VALUES (1, 'insert 1, 9, 0', 'key ' || last_insert_rowid());
INSERT INTO log SELECT 2, 'select b where a < 10',
  group_concat(line, char(10)) || char(10) || '(' || count(*) || ' rows)'
  FROM (SELECT key || ': ' || b AS line FROM t WHERE a < 10 ORDER BY key);
DELETE FROM t WHERE key = 5;
INSERT INTO log VALUES (1, 'delete 5', CASE changes() WHEN 1 THEN 'removed' ELSE 'no such key' END);
INSERT INTO log SELECT 2, 'sum c', coalesce(sum(c), 0) FROM t;
INSERT INTO t(a, b, c) VALUES (2, 2, 2);
INSERT INTO log VALUES (1, 'insert 2, 2, 2', 'key ' || last_insert_rowid());
.headers on
SELECT session, call, reply FROM log ORDER BY rowid;
SQL
