#!/bin/sh
# The program beside Mnesia, each on one node and one directory, with a disc_copies table: 20,000 puts over 1,000 keys beside as many
# transactions of one write, 1,000 of each with a sync of the log behind every one, 100,000 gets over as many keys beside transactions
# of one read, and a start behind a kill, over the log of the commits that put these keys. The one word is a part of the counts, as 100
# for a hundredth of them.
. "$(dirname -- "$0")/prepare.sh"
needs python3 erl erlc
built

cat >"$dir/beside.erl" <<'ERL'
-module(beside).
-export([puts/1, gets/1, again/1]).

%% Prints the seconds of the writes, and of the writes with a sync.
puts(Counts) ->
    [Writes, Syncs] = numbers(Counts),
    make(),
    One = timed(fun() -> each(Writes, fun(N) -> put_one(N rem 1000, N) end) end),
    Two = timed(fun() -> each(Syncs, fun(N) -> put_one(N rem 1000, N), ok = mnesia:sync_log() end) end),
    io:format("seconds ~p ~p~n", [One, Two]),
    halt().

%% Prints the seconds of the reads, and is killed.
gets(Counts) ->
    [Keys] = numbers(Counts),
    make(),
    each(Keys, fun(N) -> put_one(N, N) end),
    Reads = timed(fun() -> each(Keys, fun(N) -> [{t, N, N}] = get_one(N) end) end),
    ok = mnesia:sync_log(),
    io:format("seconds ~p~n", [Reads]),
    os:cmd("kill -9 " ++ os:getpid()).

%% Prints the seconds until the table is there.
again(Counts) ->
    [Keys] = numbers(Counts),
    Start = timed(fun() -> ok = mnesia:start(), ok = mnesia:wait_for_tables([t], infinity) end),
    Keys = mnesia:table_info(t, size),
    io:format("seconds ~p~n", [Start]),
    halt().

numbers(Words) -> [list_to_integer(atom_to_list(Word)) || Word <- Words].

make() ->
    ok = mnesia:create_schema([node()]),
    ok = mnesia:start(),
    {atomic, ok} = mnesia:create_table(t, [{disc_copies, [node()]}]).

timed(Do) ->
    {Time, _} = timer:tc(Do),
    Time / 1000000.

each(0, _) -> ok;
each(N, Do) ->
    Do(N),
    each(N - 1, Do).

put_one(Key, Value) -> {atomic, ok} = mnesia:transaction(fun() -> mnesia:write({t, Key, Value}) end).

get_one(Key) ->
    {atomic, Records} = mnesia:transaction(fun() -> mnesia:read(t, Key) end),
    Records.
ERL
cd "$dir" || exit 1
erlc beside.erl || exit 1

# The seconds that Mnesia took on the directory $1 for the function and the counts behind it.
mnesia() {
    data=$1
    shift
    erl -noinput -mnesia dir "\"$data\"" -s beside "$@" | sed -n 's/^seconds //p'
}

part=${1:-1}
writes=$((20000 / part))
syncs=$((1000 / part))
keys=$((100000 / part))
seconds="$(mnesia puts puts $writes $syncs) $(mnesia gets gets $keys) $(mnesia gets again $keys)"

PYTHONPATH=$here python3 -B - "$here/../mnesia_cli" "$dir/own" $writes $syncs $keys $seconds <<'PY'
import os, sys
from node import Node

program, dir = sys.argv[1:3]
writes, syncs, keys = (int(word) for word in sys.argv[3:6])
mnesia = [float(seconds) for seconds in sys.argv[6:]]
if len(mnesia) < 4:
    sys.exit("Mnesia did not end its transactions")

node = Node(program, os.path.join(dir, "puts"))
node.do(["create_table t []"])
puts = node.do([f"put t {{t,{n % 1000},{n}}}" for n in range(writes)])
synced = node.do([line for n in range(syncs) for line in [f"put t {{t,{n % 1000},{n}}}", "sync_log"]])
node.kill()
node = Node(program, os.path.join(dir, "gets"))
node.do(["create_table t []"])
node.do([f"put t {{t,{n},{n}}}" for n in range(keys)])
gets = node.do([f"get t {n}" for n in range(keys)])
node.kill()
node = Node(program, os.path.join(dir, "gets"))
start = node.seconds
[info], _ = node.ask(["table_info t"])
if not info.endswith(b"{size,%d}]\n" % keys):
    sys.exit(f"the start gave {info}")
node.end()

for name, count, own, other in [("puts", writes, puts, mnesia[0]), ("puts with a sync of the log", syncs, synced, mnesia[1]),
                                (f"gets over {keys:,} keys", keys, gets, mnesia[2])]:
    print(f"{name}: {count / own:,.0f} a second, Mnesia's transactions: {count / other:,.0f}, ratio: {other / own:.1f}")
other = mnesia[3]
print(f"a start behind a kill, over {keys:,} commits: {start:.2f} seconds, Mnesia's: {other:.2f}, ratio: {other / start:.1f}")
PY
