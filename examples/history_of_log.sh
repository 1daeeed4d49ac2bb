#!/bin/sh
# Makes a history file of a table's file, whose cells are whole numbers, and of a log: a CSV of session, call and reply with
# one record an entry, in the order of the history, in which the lines of a reply stand one below the other.
# Use: sh examples/history_of_log.sh TABLE LOG > HISTORY
set -eu
rows=$(tail -n +2 "$1" | sed 's/.*/[&]/' | paste -s -d , -)
attributes=$(head -n 1 "$1" | sed 's/[^,][^,]*/"&"/g')
sqlite3 :memory: <<SQL
.mode csv
.import '$2' log
.mode list
SELECT json_object(
  'attributes', json('[$attributes]'),
  'entries', (
    SELECT json_group_array(json_object(
      'call', call,
      'reply', json('["' || replace(reply, char(10), '","') || '"]'),
      'session', CAST(session AS INTEGER)))
    FROM (SELECT session, call, reply FROM log ORDER BY rowid)),
  'format', 3,
  'limit', 1048576,
  'rows', json('[$rows]'));
SQL
