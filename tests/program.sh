#!/usr/bin/env bash
# Runs the built program on each example and once for each way in which a run ends, and compares its exit status and its output.
# It also looks whether ./pdw explains the statuses from 2 on the standard error, in one line, and says nothing there otherwise.
set -u
top=$(cd "$(dirname "$0")/.." && pwd)
folder=$(mktemp -d)
trap 'rm -rf "$folder"' EXIT
cd "$folder" || exit 1
passed=0
failed=0

cat >s.sql <<'SCRIPT'
CREATE TABLE t (a INT, b TEXT) WITH (DISTRIBUTION = HASH(a));
LOAD t FROM 't.csv';
SELECT * FROM t;
SCRIPT
printf '4,x\n\\N,y\n' >t.csv
printf 'SELECT a FROM' >cut_off.sql
: >empty.sql
{
    cat s.sql
    echo 'SET BUDGET 5; PROFILE SELECT * FROM t;'
} >not_built.sql
sed 's/t.csv/none.csv/' s.sql >no_file.sql

# The lines that ./pdw writes of an exit status.
lines_of() {
    if [ "$1" -ge 2 ]; then echo 1; else echo 0; fi
}

# A name, the wanted status, the wanted output, and then the words.
expect() {
    local name=$1 status=$2 output=$3
    shift 3
    local found
    found=$("$@" 2>complaint)
    local ended=$?
    if [ "$ended" -eq "$status" ] && [ "$found" = "$output" ] && [ "$(wc -l <complaint)" -eq "$(lines_of "$status")" ]; then
        passed=$((passed + 1))
    else
        failed=$((failed + 1))
        echo "$name: status $ended, wanted $status; output:"
        echo "$found"
        echo "on the standard error:"
        cat complaint
    fi
}

# Under this limit of its memory the program does not have the room for the rows.
in_little_memory() {
    (
        ulimit -v 60000
        "$@"
    )
}

in_folder() {
    (
        cd "$1" && shift && "$@"
    )
}

seq 1 900000 >many.csv
sed 's/t.csv/many.csv/; s/, b TEXT//' s.sql >many.sql

printf '1,"x,y"\r\n2,""\r\n3,\\N\r\n' >m.csv
printf '4,u\n5,v\n6,w,z\n' >wide.csv
cat >field_count.sql <<'SCRIPT'
CREATE TABLE m (a INT, b TEXT) WITH (DISTRIBUTION = HASH(a));
LOAD m FROM 'm.csv';
SELECT a, b FROM m ORDER BY a;
LOAD m FROM 'wide.csv';
SCRIPT
cat >dropped.sql <<'SCRIPT'
CREATE TABLE e (k INT, v INT) WITH (DISTRIBUTION = HASH(k));
DROP TABLE e;
SELECT k FROM e;
SCRIPT

for statement in 'EXPLAIN JSON' "CHECK PLAN 'plan.json' FOR"; do
    echo 'CREATE TABLE e (k INT, v INT) WITH (DISTRIBUTION = HASH(k));'
    echo "$statement SELECT COUNT(*) FROM e;"
done | split -l 2 --additional-suffix=.sql - counted_

# Builds it, where that is still to be done.
"$top/pdw" run 1 empty.sql || exit 1
"$top/pdw" run 4 counted_aa.sql | sed -n 2p >plan.json

for example in "$top"/examples/*/; do
    expect "the example $(basename "$example")" 0 "$(cat "$example/expected")" in_folder "$example" "$top/pdw" run 4 s.sql
done
expect 'a whole run' 0 "$(printf 'OK\nLOADED 2\na,b\nNULL,"y"\n4,"x"\nROWS 2')" "$top/pdw" run 3 s.sql
expect 'one node' 0 "$(printf 'OK\nLOADED 2\na,b\n4,"x"\nNULL,"y"\nROWS 2')" "$top/pdw" run 1 s.sql
expect 'an empty script' 0 '' "$top/pdw" run 3 empty.sql
expect refused 1 'REFUSED E6 SYNTAX AT 13' "$top/pdw" run 3 cut_off.sql
expect 'not built' 1 "$(printf 'OK\nLOADED 2\na,b\n4,"x"\nNULL,"y"\nROWS 2\nOK\nREFUSED E19 STATEMENT 5 NOTBUILT')" "$top/pdw" run 1 not_built.sql
expect 'a plan file as it was printed' 0 "$(printf 'OK\nPLAN ACCEPTED COST 192')" "$top/pdw" run 4 counted_ab.sql
expect 'a plan file of another appliance' 0 "$(printf 'OK\nPLAN REFUSED WRONGCOST WRITTEN 192 COMPUTED 96')" "$top/pdw" run 2 counted_ab.sql
expect 'a later file with a field too many' 1 "$(printf 'OK\nLOADED 3\na,b\n1,"x,y"\n2,""\n3,NULL\nROWS 3\nREFUSED E17 STATEMENT 4 FIELDCOUNT 3')" "$top/pdw" run 4 field_count.sql
expect 'a dropped table' 1 "$(printf 'OK\nOK\nREFUSED E9 STATEMENT 3 UNKNOWNTABLE e')" "$top/pdw" run 4 dropped.sql
expect 'no words' 2 '' "$top/pdw"
expect 'no nodes' 2 '' "$top/pdw" run 0 s.sql
expect 'too many nodes' 2 '' "$top/pdw" run 17 s.sql
expect 'a leading zero' 2 '' "$top/pdw" run 04 s.sql
expect 'no script' 2 '' "$top/pdw" run 4
expect 'words that are not UTF-8' 2 '' "$top/pdw" run 4 $'\xff'
expect 'a file that is not there' 3 OK "$top/pdw" run 3 no_file.sql
expect 'a script that is not there' 3 '' "$top/pdw" run 3 none.sql
expect 'an output that is full' 4 '' sh -c '"$1" run 3 s.sql >/dev/full' sh "$top/pdw"
expect 'little memory' 5 OK in_little_memory "$top/pdw" run 3 many.sql

echo "$passed passed, $failed failed"
[ "$failed" -eq 0 ]
