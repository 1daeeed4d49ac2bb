#!/bin/sh
# Runs the program for each way in which it can end, and compares the exit status, what it prints and what it tells on
# standard error. The last line says how many cases passed. Status 1 where one did not.
set -u
top=$(cd "$(dirname "$0")/.." && pwd) || exit 3
program=$top/crates/sideways/out/sideways
if [ ! -x "$program" ]; then
    "$top/sideways" prove >/dev/null || exit 3
fi
work=$(mktemp -d "${TMPDIR:-/tmp}/statuses.XXXXXX") || exit 3
trap 'rm -rf "$work"' EXIT
cd "$work" || exit 3

passed=0
failed=0

# A case: its name, the status, the output, what is told on standard error (its first line; * is any), and the command.
case_of() {
    name=$1 status=$2 out=$3 told=$4
    shift 4
    "$@" >out 2>err
    is=$?
    first=$(sed -n 1p err)
    verdict=passed
    [ "$is" -eq "$status" ] || verdict=FAILED
    [ "$out" = '*' ] || [ "$(cat out)" = "$out" ] || verdict=FAILED
    [ "$told" = '*' ] || [ "$first" = "$told" ] || verdict=FAILED
    if [ "$verdict" = passed ]; then passed=$((passed + 1)); else failed=$((failed + 1)); fi
    printf '%s: %s: status %s, wanted %s; told: %s\n' "$verdict" "$name" "$is" "$status" "$first"
}

# A command whose output goes to a device that is always full.
to_full() { "$@" >/dev/full; }

# A command that tells on a device that is always full.
to_full_errors() { "$@" 2>/dev/full; }

# A command that gets so many KiB of memory at most.
within() { kib=$1; shift; (ulimit -v "$kib" && exec "$@"); }

printf 'a:int,b:int,c:int\n12,7,1\n3,8,0\n12,5,1\n20,2,0\n' >t.csv
printf 'count\n' >count.txt
printf 'count\ncount where d = 1\n' >unknown.txt
printf 'count\nfetch\n' >word.txt
printf 'a,b\n1,2\n3\n' >short.csv
printf '\377\n' >bytes.txt
front='{"attributes":["a:int","b:int","c:int"],"entries":[{"call":"count","reply":["'
back='"],"session":1}],"format":1,"limit":1048576,"rows":[[12,7,1],[3,8,0],[12,5,1],[20,2,0]]}'
printf '%s4%s' "$front" "$back" >legal.json
printf '%s5%s' "$front" "$back" >illegal.json
head -c 20 legal.json >cut.json
printf 'count where a >= 10\n---\ncount where b >= 6\n' >blocks.txt
printf 'delete where a = 12\nselect a\ndelete where a = 12\ninsert 1, 1, 1\n' >updates.txt
mkdir folder

# How many refusals are explained, each beginning with its number.
explained() { "$program" explain | grep -c '^refused [0-9]'; }

# The first line of what is said of a refusal.
explained_first() { "$program" explain "$1" | sed -n 1p; }

run() { "$program" run --table t.csv --script count.txt "$@"; }

# 0: all was answered
case_of 'help' 0 '*' '' "$program" --help
case_of 'help of run' 0 '*' '' "$program" run --help
case_of 'a refusal explained' 0 'refused 4 name N: the table has no attribute of this name.' '' explained_first 4
case_of 'all refusals explained' 0 14 '' explained
case_of 'a number that no refusal has' 2 '' '*' "$program" explain 15
case_of 'a run' 0 4 '' run
case_of 'a run that writes its history' 0 4 '' run --history kept.json
case_of 'its history' 0 'legal: 1 entries' '' "$program" check kept.json
case_of 'the history of the formats' 0 'legal: 1 entries' '' "$program" check legal.json
case_of 'the two are the same bytes' 0 '' '' cmp kept.json legal.json
case_of 'blocks in threads' 0 "$(printf '3\n---\n2')" '' "$program" run --table t.csv --script blocks.txt --threads --cuts 'a=12;b=7'
case_of 'a run without cells' 0 4 '' run --budget 0
case_of 'a run without maps' 0 4 '' run --maps 0
case_of 'rows deleted under conditions' 0 "$(printf '(2 removed)\n2: 3\n4: 20\n(2 rows)\n(0 removed)\nkey 5')" '' "$program" run --table t.csv --script updates.txt --history updated.json
case_of 'their history' 0 'legal: 4 entries' '' "$program" check updated.json
sed 's/"format":3/"format":2/' updated.json >older.json
case_of 'such a call in an older file' 2 '' 'sideways: refused 3 line 1 why History' "$program" check older.json


# What the heads tell of themselves: the table is on standard error alone; asked the same ranges again a head has no piece and
# no entry more; without maps it scans; a head that was not asked has no area; seventy removals begin its area anew once. The
# last column is the clock's, and is not compared, but that twenty scans of 200,000 rows take time and no scan takes none.
ranges='count where a >= 10 and a < 13\nselect c where a < 13\nsum b where b > 5\n'
printf "$ranges" >once.txt
printf "$ranges$ranges" >twice.txt
stats() {
    script=$1
    shift
    "$program" run --table t.csv --script "$script" --stats "$@" 2>heads >/dev/null
    is=$?
    cut -d ' ' -f 1-9 heads
    return "$is"
}
seq 200000 | sed '1s/.*/a,b/; 2,$s/.*/&,&/' >many.csv
seq 20 | sed 's/.*/count where a >= &/' >many.txt
timed_heads() {
    "$program" run --table many.csv --script many.txt --stats --maps 0 2>&1 >/dev/null | awk 'NF == 10 && NR > 1 { print $1, ($10 > 0) }'
}
case_of 'stats change no output' 0 4 'head queries areas pieces entries restarts maps cells scans ms' run --stats
case_of 'the milliseconds are those of the head that scanned' 0 "$(printf 'a 1\nb 0')" '' timed_heads
case_of 'ranges asked once' 0 "$(printf 'head queries areas pieces entries restarts maps cells scans\na 2 1 3 2 0 2 128 0\nb 1 1 2 2 0 1 64 0\nc 0 0 0 0 0 0 0 0')" '' stats once.txt
case_of 'ranges asked twice' 0 "$(printf 'head queries areas pieces entries restarts maps cells scans\na 4 1 3 2 0 2 128 0\nb 2 1 2 2 0 1 64 0\nc 0 0 0 0 0 0 0 0')" '' stats twice.txt
case_of 'ranges asked twice of heads that may be shared' 0 "$(printf 'head queries areas pieces entries restarts maps cells scans\na 4 1 3 2 0 2 128 0\nb 2 1 2 2 0 1 64 0\nc 0 0 0 0 0 0 0 0')" '' stats twice.txt --threads
case_of 'ranges without maps' 0 "$(printf 'head queries areas pieces entries restarts maps cells scans\na 4 1 1 1 0 0 0 4\nb 2 1 1 1 0 0 0 2\nc 0 0 0 0 0 0 0 0')" '' stats twice.txt --maps 0
seq 0 100 | sed '1s/.*/a/' >hundred.csv
printf 'count where a <= 50\ndelete where a <= 70\ncount\n' >seventy.txt
removals_heads() {
    "$program" run --table hundred.csv --script seventy.txt --stats 2>heads
    cut -d ' ' -f 1-9 heads
}
case_of 'an area begins anew once for many removals' 0 "$(printf '50\n(70 removed)\n30\nhead queries areas pieces entries restarts maps cells scans\na 2 1 1 1 1 1 64 0')" '' removals_heads
case_of 'stats to a full device' 3 4 '' to_full_errors run --stats

# How far a run is: a script, and then a table, come after more than a second through a pipe. Where standard error is a terminal a
# line tells of the calls that were made, or of the table's lines that were read; with --quiet none does, nor where it is no terminal.
mkfifo slow
slow_script() { (sleep 1.5; echo count) >slow & }
slow_table() { (head -n 2 t.csv; sleep 1.5; tail -n 3 t.csv) >slow & }
waiting() { slow_script; "$program" run --table t.csv --script slow; }
on_terminal() { script -qec "'$program' run $*" /dev/null </dev/null | tr -d '\r' | sed -n 1p; }
calls_told() { slow_script; on_terminal --table t.csv --script slow "$@"; }
lines_told() { slow_table; on_terminal --table slow --script count.txt "$@"; }
values_told() { slow_table; script -qec "'$program' import slow $*" /dev/null </dev/null | tr -d '\r' | sed -n 1p; }
case_of 'a quiet run' 0 4 '' run --quiet
case_of 'a slow run, and no terminal' 0 4 '' waiting
if command -v script >/dev/null; then
    case_of 'a slow script on a terminal' 0 'sideways: 1 calls made' '' calls_told
    case_of 'a slow table on a terminal' 0 'sideways: 5 lines of the table read' '' lines_told
    case_of 'a slow script on a terminal, and quiet' 0 4 '' calls_told --quiet
    case_of 'slow values on a terminal' 0 'sideways: 5 lines of the values read' '' values_told
    case_of 'slow values on a terminal, and quiet' 0 a_int:int,b_int:int,c_int:int '' values_told --quiet
    case_of 'a slow table on a terminal, and quiet' 0 4 '' lines_told --quiet
else
    echo 'no command script: no run was made on a terminal'
fi

# 1: a history is not legal, and nothing else
case_of 'a history that is not legal' 1 'not legal: entry 1' '' "$program" check illegal.json
case_of 'why it is not' 1 "not legal: entry 1
entry 1, session 1: count
given, line 1 of 1: 5
the list's, line 1 of 1: 4" '' "$program" check --explain illegal.json
case_of 'why one that is legal is not' 0 'legal: 1 entries' '' "$program" check --explain legal.json

# 2: the command line, or what is read
case_of 'no words' 2 '' '*' "$program"
case_of 'an unknown flag' 2 '' '*' run --fast
case_of 'an unknown word' 2 '' '*' "$program" walk
case_of 'no script' 2 '' '*' "$program" run --table t.csv
case_of 'a limit of 0' 2 '' '*' run --limit 0
case_of 'a limit too great' 2 '' '*' run --limit 1048577
case_of 'a word that is not UTF-8' 2 '' 'sideways: refused 12' "$program" check "$(printf '\377')"
case_of 'no such table' 2 '' 'sideways: refused 12' "$program" run --table none.csv --script count.txt
case_of 'no such script' 2 '' 'sideways: refused 12' "$program" run --table t.csv --script none.txt
case_of 'a table that is a folder' 2 '' 'sideways: refused 12' "$program" run --table folder --script count.txt
case_of 'a short record' 2 '' 'sideways: refused 2 record 2 field 2' "$program" run --table short.csv --script count.txt
case_of 'a faulty line' 2 '' 'sideways: refused 3 line 2 why Word' "$program" run --table t.csv --script word.txt
case_of 'bytes that are no text' 2 '' 'sideways: refused 3 line 1 why Encoding' "$program" run --table t.csv --script bytes.txt
case_of 'an unknown attribute' 2 '' 'sideways: refused 4 name d' "$program" run --table t.csv --script unknown.txt
case_of 'more rows than the limit' 2 '' 'sideways: refused 5 limit 3' run --limit 3
case_of 'cuts of an unknown attribute' 2 '' 'sideways: refused 4 name d' run --cuts d=1
case_of 'cuts that fall' 2 '' 'sideways: refused 3 line 0 why Cuts' run --cuts 'a=2;a=1'
case_of 'a cut too many' 2 '' 'sideways: refused 5 limit 15' run --cuts "$(seq -s ';' -f 'a=%g' 16)"
case_of 'a fault of the table before one of the cuts' 2 '' 'sideways: refused 2 record 2 field 2' "$program" run --table short.csv --script folder --cuts d=1
case_of 'cuts before the limit' 2 '' 'sideways: refused 4 name d' run --cuts d=1 --limit 3
case_of 'a budget too great' 2 '' '*' run --budget 1099511627777
case_of 'maps too many' 2 '' '*' run --maps 4097
case_of 'no such history' 2 '' 'sideways: refused 12' "$program" check none.json
case_of 'a history that is a folder' 2 '' 'sideways: refused 12' "$program" check folder
case_of 'a history that is cut' 2 '' 'sideways: refused 3 line 0 why History' "$program" check cut.json

# 3: the output, the history file, or memory
case_of 'an explanation to a full device' 3 '' 'sideways: refused 13' to_full "$program" explain
case_of 'help to a full device' 3 '' 'sideways: refused 13' to_full "$program" --help
case_of 'a run to a full device' 3 '' 'sideways: refused 13' to_full run
case_of 'a verdict to a full device' 3 '' 'sideways: refused 13' to_full "$program" check legal.json
case_of 'a bad verdict to a full device' 3 '' 'sideways: refused 13' to_full "$program" check illegal.json
case_of 'an explanation to a full device' 3 '' 'sideways: refused 13' to_full "$program" check --explain illegal.json
case_of 'a history into a folder that is none' 3 4 'sideways: refused 13' run --history none/kept.json
case_of 'a history to a full device' 3 4 'sideways: refused 13' run --history /dev/full

# A file that is larger than the memory that the program gets.
head -c 60000000 /dev/zero >large
case_of 'a history without memory' 3 '' 'sideways: refused 1' within 40000 "$program" check large
case_of 'a table without memory' 3 '' 'sideways: refused 1' within 40000 "$program" run --table large --script count.txt
case_of 'a script without memory' 3 '' 'sideways: refused 1' within 40000 "$program" run --table t.csv --script large

# The first 400 allocations of a command, which is given a file, refused in turn: the status is 3, and a line tells of it or the
# reply of the call that was refused does; or all is as ever, where the program did without.
given=/dev/null
refused_in_turn() {
    name=$1 plain=$2
    shift 2
    verdict=passed
    told=0
    number=1
    while [ "$number" -le 400 ]; do
        REFUSED=$number LD_PRELOAD=$work/refusing.so "$@" <"$given" >out 2>err
        is=$?
        if [ "$is" -eq 3 ] && { grep -qx 'sideways: refused 1' err || grep -qx 'refused 1' out || grep -q '^sideways: calls were refused' err; }; then
            told=$((told + 1))
        elif [ "$is" -ne "$plain" ]; then
            verdict=FAILED
            echo "allocation $number of $name: status $is"
        fi
        number=$((number + 1))
    done
    [ "$told" -gt 0 ] || verdict=FAILED
    if [ "$verdict" = passed ]; then passed=$((passed + 1)); else failed=$((failed + 1)); fi
    printf '%s: %s: %s allocations refused with status 3, else status %s\n' "$verdict" "$name" "$told" "$plain"
}

printf 'select b where a >= 10\ninsert 1, 2, 3\ndelete where b > 5\n---\ncount\n' >calls.txt
printf 'count\nselect b where a >= 10\n.names\n.stats\ninsert 1, 2, 3\n.write rows.csv\n.history kept.json\n.quit\n' >entered.txt
printf 'n,city,ok,day\n1,Oslo,TRUE,2020-01-01\n2,Roma,false,2020-02-29\n' >values.csv
printf 'n,city\n1,Oslo\n,%065d\n' 7 >long.csv
if ${CC:-cc} -O1 -shared -fPIC -o refusing.so "$top/tests/refusing.c" -ldl 2>/dev/null; then
    refused_in_turn 'a run' 0 "$program" run --table t.csv --script calls.txt --history turn.json
    refused_in_turn 'a run under a header' 0 "$program" run --table t.csv --header 'a:int,-,c:int' -e 'select a where c >= 1' -e count
    refused_in_turn 'a check' 0 "$program" check legal.json
    refused_in_turn 'a check of what is not legal' 1 "$program" check illegal.json
    refused_in_turn 'an explanation' 1 "$program" check --explain illegal.json
    refused_in_turn 'help' 0 "$program" --help
    refused_in_turn 'an unknown flag' 2 "$program" run --fast
    refused_in_turn 'replies as JSON' 0 "$program" run --table t.csv --script calls.txt --output json
    refused_in_turn 'replies as records' 0 "$program" run --table t.csv -e 'select a' -e 'sum c' --output csv
    refused_in_turn 'a reply as a table' 0 "$program" run --table t.csv -e 'select a' -e 'select a, b where c >= 1' --output table
    refused_in_turn 'an import' 0 "$program" import values.csv
    refused_in_turn 'an import with numbers for texts' 0 "$program" import long.csv --long number --dictionary texts.csv --empty 0
    refused_in_turn 'an import that is refused' 2 "$program" import short.csv
    refused_in_turn 'a description' 0 "$program" describe t.csv
    refused_in_turn 'a description under a header' 0 "$program" describe t.csv --header 'a:int,-,c:int'
    refused_in_turn 'a description as JSON' 0 "$program" describe t.csv --output json
    refused_in_turn 'the names of a shell' 0 "$program" shell t.csv --names
    refused_in_turn 'the names of a shell under a header' 0 "$program" shell t.csv --header 'a:int,-,c:int' --names
    given=entered.txt
    refused_in_turn 'a shell' 0 "$program" shell t.csv --history entered.json
    printf 'count where d = 1\ncount\n' >entered.txt
    refused_in_turn 'a shell with a line that is refused' 2 "$program" shell t.csv
    given=/dev/null
else
    echo "no C compiler: allocations were not refused in turn"
fi

echo "$passed passed, $failed failed"
[ "$failed" -eq 0 ]
