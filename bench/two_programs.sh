#!/bin/bash
# Starts a program on a directory that another one works on: it should be refused, and change nothing. The first one works on, and once
# it has ended, or was killed, the next one is let in.
here=$(cd "$(dirname "$0")/.." && pwd)
program=$here/mnesia_cli
dir=$(mktemp -d) || exit 1
trap 'rm -rf "$dir"' EXIT
data=$dir/data
mkdir "$data"
wrong=0

# Builds the program where it is not built yet.
"$program" >/dev/null 2>&1

expect() {
    if [ "$2" != "$3" ]; then
        echo "$1: '$2' in place of '$3'"
        wrong=$((wrong + 1))
    fi
}

# A node as a coprocess, and its answer to a command.
begin() {
    coproc node { exec "$program" "$data"; }
    pid=$node_PID
    read -r reply <&"${node[0]}"
    expect start "$reply" "{started,0}"
}

ask() {
    echo "$1" >&"${node[1]}"
    read -r reply <&"${node[0]}"
    expect "$1" "$reply" "$2"
}

# Another program on the directory, which is refused.
is_refused() {
    before=$(cat "$data"/* | cksum)
    echo 'put t {t,1,second}' | "$program" "$data" >"$dir/replies" 2>"$dir/reason"
    expect "status of the second program" "$?" 4
    expect "replies of the second program" "$(cat "$dir/replies")" ""
    expect "reason of the second program" "$(cat "$dir/reason")" "in use: $data"
    expect "directory behind the second program" "$(cat "$data"/* | cksum)" "$before"
}

begin
ask 'create_table t []' '{atomic,ok}'
ask 'put t {t,1,first}' '{atomic,ok}'
is_refused
ask sync_log ok
is_refused
ask 'put t {t,2,first}' '{atomic,ok}'
exec {node[1]}>&-
wait "$pid"
expect "status of the first program" "$?" 0

begin
ask 'put t {t,3,first}' '{atomic,ok}'
is_refused
{ kill -9 "$pid" && wait "$pid"; } 2>/dev/null

found=$(for ((key = 1; key <= 3; key++)); do echo "get t $key"; done | "$program" "$data" | grep -c "^\[{t,[0-9]*,first}\]$")
expect "records of the first programs" "$found" 3
[ "$wrong" -eq 0 ] && echo "a second program is refused, and nothing is lost"
