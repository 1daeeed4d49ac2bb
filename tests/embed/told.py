#!/usr/bin/env python3
"""Holds a history against what its callers were told: of each session the history has the calls, each once, in the order in which it
made them, with the replies that it was given, and no other session made more than `read_rows` of threads.c.

    tests/embed/told.py HISTORY LOG

LOG has a line for each call, `session,call,reply`. Ends with 1 at the first that is wrong."""

import json
import sys


def main():
    with open(sys.argv[1], "rb") as file:
        history = json.load(file)
    kept = {}
    for entry in history["entries"]:
        kept.setdefault(entry["session"], []).append((entry["call"], "\n".join(entry["reply"])))
    told = {}
    with open(sys.argv[2], encoding="ascii") as file:
        for record in file:
            session, rest = record.rstrip("\n").split(",", 1)
            call, reply = rest.rsplit(",", 1)
            told.setdefault(int(session), []).append((call, reply))
    if len(told) < 2 or set(told) != set(kept):
        sys.exit(f"told: WRONG: sessions {sorted(told)} were told, {sorted(kept)} are kept")
    for session, calls in told.items():
        mine = [entry for entry in kept[session] if not entry[0].startswith("select")]
        for place, (wanted, found) in enumerate(zip(calls, mine), 1):
            if wanted != found:
                sys.exit(f"told: WRONG: session {session}, call {place}: told {wanted}, kept {found}")
        if len(calls) != len(mine):
            sys.exit(f"told: WRONG: session {session} made {len(calls)} calls, kept are {len(mine)}")
    print(f"told: all passed, {sum(map(len, told.values()))} calls of {len(told)} sessions")


if __name__ == "__main__":
    main()
