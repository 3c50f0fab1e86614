#!/bin/bash
# Kills the program between two commands with SIGKILL, starts it again, and counts the answered puts that are lost: none should be.
# The table that they are put into is made first.
# The number of rounds is the one word, 40 where there is none.
here=$(cd "$(dirname "$0")/.." && pwd)
program=$here/mnesia_cli
rounds=${1:-40}
dir=$(mktemp -d) || exit 1
trap 'rm -rf "$dir"' EXIT

# Builds the program where it is not built yet.
"$program" >/dev/null 2>&1

lost=0
for ((round = 1; round <= rounds; round++)); do
    data=$dir/$round
    mkdir "$data"
    coproc node { exec "$program" "$data"; }
    pid=$node_PID
    read -r _ <&"${node[0]}" # {started,0}
    echo 'create_table t []' >&"${node[1]}"
    read -r reply <&"${node[0]}"
    [ "$reply" = "{atomic,ok}" ] || echo "round $round: the table was answered $reply"
    for ((put = 1; put <= round; put++)); do
        echo "put t {t,$put,{round,$round}}" >&"${node[1]}"
        read -r reply <&"${node[0]}"
        [ "$reply" = "{atomic,ok}" ] || echo "round $round: put $put was answered $reply"
    done
    kill -9 "$pid"
    wait "$pid" 2>/dev/null
    found=$(for ((put = 1; put <= round; put++)); do echo "get t $put"; done \
        | "$program" "$data" | grep -c "^\[{t,[0-9]*,{round,$round}}\]$")
    lost=$((lost + round - found))
done
echo "answered puts: $((rounds * (rounds + 1) / 2)), lost: $lost"
[ "$lost" -eq 0 ]
