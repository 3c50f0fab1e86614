#!/bin/sh
# Transactions of the program beside Mnesia's of one process, each on one node and one directory, with a disc_copies table: 50,000 of one
# write and 5,000 of ten writes, over 1,000 keys, each five times, of which the fastest counts. Then of the program alone: one transaction of
# 99,998 writes and reads beside as many puts and gets, the fastest of five again, and reads that a lock bars, of a transaction with 999 calls
# and of one with a hundred times as many. The program's figures are those of whole runs, with their start and their stop, but for the reads
# that are barred. The one word is a part of the counts, as 100 for a hundredth of them.
. "$(dirname -- "$0")/prepare.sh"
needs python3 erl erlc
built

cat >"$dir/beside.erl" <<'ERL'
-module(beside).
-export([writes/1]).

%% Prints the seconds of the transactions of one write, and of those of ten.
writes(Words) ->
    [One, Ten] = [list_to_integer(atom_to_list(Word)) || Word <- Words],
    ok = mnesia:create_schema([node()]),
    ok = mnesia:start(),
    {atomic, ok} = mnesia:create_table(t, [{disc_copies, [node()]}]),
    TimeOne = fastest(fun() -> each(One, fun(N) -> write(N, 1) end) end),
    TimeTen = fastest(fun() -> each(Ten, fun(N) -> write(N * 10, 10) end) end),
    io:format("seconds ~p ~p~n", [TimeOne / 1000000, TimeTen / 1000000]),
    halt().

fastest(Do) -> lists:min([element(1, timer:tc(Do)) || _ <- lists:seq(1, 5)]).

each(0, _) -> ok;
each(N, Do) ->
    Do(N),
    each(N - 1, Do).

write(First, Count) ->
    {atomic, ok} = mnesia:transaction(fun() ->
        each(Count, fun(N) -> mnesia:write({t, (First + N) rem 1000, First}) end)
    end).
ERL
cd "$dir" || exit 1
erlc beside.erl || exit 1

part=${1:-1}
ones=$((50000 / part))
tens=$((5000 / part))
calls=$((99998 / part))
seconds="$(erl -noinput -mnesia dir '"mnesia"' -s beside writes $ones $tens | sed -n 's/^seconds //p')"

PYTHONPATH=$here python3 -B - "$here/../mnesia_cli" "$dir/own" $ones $tens $calls $seconds <<'PY'
import os, sys
from node import Node, whole_run

program, dir = sys.argv[1:3]
ones, tens, calls = (int(word) for word in sys.argv[3:6])
mnesia = [float(seconds) for seconds in sys.argv[6:]]
if len(mnesia) < 2:
    sys.exit("Mnesia did not end its transactions")


def transaction(name, first, count):
    writes = [f"write {name} t {{t,{(first + n) % 1000},{first}}}" for n in range(count)]
    return [f"begin {name}", *writes, f"commit {name}"]


def whole(name, count):
    return [line for n in range(count // 2) for line in [f"write {name} t {{t,{n},{n}}}", f"read {name} t {n}"]]


def fastest(name, lines):
    """How many seconds the fastest of five runs takes, each on a directory of its own."""
    return min(whole_run(program, os.path.join(dir, f"{name}{n}"), ["create_table t []", *lines]) for n in range(5))


def node_of(name):
    node = Node(program, os.path.join(dir, name))
    node.do(["create_table t []"])
    return node


one = fastest("ones", [line for n in range(ones) for line in transaction("x", n, 1)])
ten = fastest("tens", [line for n in range(tens) for line in transaction("x", n * 10, 10)])
for name, count, own, other in [("one write", ones, one, mnesia[0]), ("ten writes", tens, ten, mnesia[1])]:
    print(f"transactions of {name}: {count / own:,.0f} a second, Mnesia's: {count / other:,.0f}, ratio: {other / own:.1f}")

single = fastest("single", [line for n in range(calls // 2) for line in [f"put t {{t,{n},{n}}}", f"get t {n}"]])
all = fastest("whole", ["begin x", *whole("x", calls), "commit x"])
print(f"one transaction of {calls:,} writes and reads: {all:.2f} seconds, as many single calls: {single:.2f}, ratio: {all / single:.2f}")

barred = []
for count in [calls // 100, calls]:
    node = node_of(f"barred{count}")
    node.do(["begin x", *whole("x", count), "begin y"])
    replies, seconds = node.ask(["read y t 1"] * 20000)
    if set(replies) != {b"{aborted,{locked,x}}\n"}:
        sys.exit(f"a read was answered {set(replies)}")
    barred.append(seconds)
    node.kill()
print(f"reads that a lock bars: of {calls // 100:,} calls {20000 / barred[0]:,.0f} a second, of {calls:,} {20000 / barred[1]:,.0f}")
PY
