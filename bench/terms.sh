#!/bin/sh
# Compares terms with Erlang's: what is printed with ~w, what is written with term_to_binary, and the order with lists:sort, for
# 1,000 made terms. Then prints how many MB a second are read, printed, encoded and decoded, and how the time grows where one
# term is made twice as long.
. "$(dirname -- "$0")/prepare.sh"
needs escript python3
tool=$here/../crates/term_tool/out/term_tool

# `rt run` proves and builds; with no word the tool does no more than end with status 2.
if [ ! -x "$tool" ]; then
    echo "proving and building term_tool, which may take some minutes" >&2
    (cd "$here/../crates/term_tool" && rt run </dev/null >/dev/null 2>&1)
fi

cat >"$dir/made.escript" <<'ERL'
%% Makes terms and writes what Erlang prints and writes of each, and their order.
-mode(compile).

main([Number, Shown, Sorted]) ->
    rand:seed(exsss, {1, 2, 3}),
    Terms = [term(4) || _ <- lists:seq(1, list_to_integer(Number))],
    lines(Shown, [[text(T), $\t, hex(term_to_binary(T, [{minor_version, 2}]))] || T <- Terms]),
    lines(Sorted, [text(T) || T <- lists:sort(Terms)]).

lines(File, Lines) -> ok = file:write_file(File, [[Line, $\n] || Line <- Lines]).
text(T) -> unicode:characters_to_binary(io_lib:format("~w", [T])).
hex(Bytes) -> [io_lib:format("~2.16.0b", [Byte]) || <<Byte>> <= Bytes].

some(Most, Make) -> [Make() || _ <- lists:seq(1, rand:uniform(Most + 1) - 1)].
byte() -> rand:uniform(256) - 1.

term(0) -> leaf();
term(Levels) ->
    case rand:uniform(40) of
        1 -> list_to_tuple([leaf() || _ <- lists:seq(1, 250 + rand:uniform(10))]);
        2 -> some(300, fun byte/0);
        N when N < 9 -> some(5, fun byte/0);
        N when N < 16 -> list_to_tuple(some(4, fun() -> term(Levels - 1) end));
        N when N < 23 -> some(4, fun() -> term(Levels - 1) end);
        _ -> leaf()
    end.

leaf() ->
    case rand:uniform(5) of
        1 -> rand:uniform(512) - 256;
        2 -> (rand:uniform(1 bsl rand:uniform(127)) - 1) * (2 * rand:uniform(2) - 3);
        3 -> lists:nth(rand:uniform(10), [a, 'and', 'Ab c', '', t, x@y, 'a\'b', 'a\\b', '_', 'div']);
        4 -> list_to_atom(some(8, fun() -> lists:nth(rand:uniform(12), "abcXYZ019_@ ") end));
        5 -> list_to_binary(some(5, fun byte/0))
    end.
ERL
escript "$dir/made.escript" 1000 "$dir/shown" "$dir/sorted" || exit 1
cut -f1 "$dir/shown" >"$dir/terms"
"$tool" show <"$dir/terms" >"$dir/show" && cmp "$dir/shown" "$dir/show" || exit 1
"$tool" sort <"$dir/terms" >"$dir/sort" && cmp "$dir/sorted" "$dir/sort" || exit 1
echo "1,000 terms: printed, written and sorted as by Erlang"

python3 - "$tool" "$dir" <<'PY'
import os, subprocess, sys, time

tool, dir = sys.argv[1:]

def seconds(task, terms, times):
    with open(terms, "rb") as lines:
        start = time.perf_counter()
        subprocess.run([tool, task, str(times)], stdin=lines, check=True)
        return time.perf_counter() - start

def each(task, terms, times):
    return min(seconds(task, terms, times + 1) - seconds(task, terms, 1) for _ in range(3)) / times

with open(os.path.join(dir, "shown")) as shown:
    pairs = [line.rstrip("\n").split("\t") for line in shown]
sizes = {"text": sum(len(text) for text, _ in pairs), "bytes": sum(len(hex) // 2 for _, hex in pairs)}
for task, kind in [("read", "text"), ("print", "text"), ("encode", "bytes"), ("decode", "bytes")]:
    print(f"{task}: {sizes[kind] / each(task, os.path.join(dir, 'terms'), 50) / 1e6:.1f} MB a second")

def long_term(elements):
    name = os.path.join(dir, str(elements))
    with open(name, "w") as term:
        term.write("[" + ",".join(f"{{t,{n},'Ab c',<<1,2,3>>}}" for n in range(elements)) + "]\n")
    return name

for task in ["read", "print", "encode", "decode"]:
    one, two = (each(task, long_term(elements), 50) for elements in (10_000, 20_000))
    print(f"{task} of a term twice as long: {two / one:.2f} times the time")
PY
