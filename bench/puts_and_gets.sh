#!/bin/sh
# How many lines a second the program takes, beside how many bare appends of 60 bytes the machine makes: 200,000 puts over ten keys and
# then as many gets, and the same over 1,000 keys. Each figure is that of a whole run, with its start and its stop, and the fastest of five.
. "$(dirname -- "$0")/prepare.sh"
needs python3
built

PYTHONPATH=$here python3 -B - "$here/../mnesia_cli" "$dir" "${1:-200000}" <<'PY'
import os, sys, time
from node import whole_run

program, dir, count = sys.argv[1], sys.argv[2], int(sys.argv[3])


def seconds(name, lines):
    return whole_run(program, os.path.join(dir, name), lines)


def puts(count, keys):
    return ["create_table t []"] + [f"put t {{t,{n % keys},{n}}}" for n in range(count)]


def gets(count, keys):
    return [f"get t {n % keys}" for n in range(count)]


def appends(name):
    file = os.open(os.path.join(dir, name), os.O_WRONLY | os.O_CREAT | os.O_APPEND)
    start = time.perf_counter()
    for _ in range(count):
        os.write(file, b"x" * 60)
    taken = time.perf_counter() - start
    os.close(file)
    return taken


def fastest(taken):
    return min(taken(n) for n in range(5))


bare = count / fastest(lambda n: appends(f"appends{n}"))
print(f"bare appends: {bare:,.0f} a second")


def tell(what, taken):
    print(f"{what}: {count / taken:,.0f} lines a second, ratio {count / taken / bare:.2f}")


for keys in [10, 1000]:
    tell(f"puts over {keys:,} keys", fastest(lambda n: seconds(f"puts{keys}.{n}", puts(count, keys))))
    seconds(f"gets{keys}", puts(keys, keys))
    tell(f"gets over {keys:,} keys", fastest(lambda n: seconds(f"gets{keys}", gets(count, keys))))
PY
