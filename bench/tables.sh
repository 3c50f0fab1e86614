#!/bin/sh
# Large tables and many: how much longer a put takes in a table of 1,000,000 records than in one of 1,000, where keys come in order and
# where they come in none; how much memory a record {t,N,a} takes of 1,000,000; and that the 1001st table is refused. The one word is
# the number of records of the large table, where it is another.
. "$(dirname -- "$0")/prepare.sh"
needs python3
built

PYTHONPATH=$here python3 -B - "$here/../mnesia_cli" "$dir" "${1:-1000000}" <<'PY'
import os, random, sys
from node import Node

program, dir, large = sys.argv[1], sys.argv[2], int(sys.argv[3])
small = 1000
# So many puts are timed in the large table, and as many in small ones, no more in each than it has.
timed = min(20_000, large)
# A run takes at most 1,000,000 commands: one makes the table, and so many put into it.
most = 999_999


def puts(table, keys):
    return [f"put {table} {{{table},{key},a}}" for key in keys]


def begun(name):
    return Node(program, os.path.join(dir, name))


def filled(name, keys):
    """A node with a table t of these keys, and the bytes of memory for a record."""
    node = begun(name)
    node.do(["create_table t []"])
    empty = node.memory()
    node.do(puts("t", keys[:most]))
    bytes = (node.memory() - empty) / len(keys[:most])
    if keys[most:]:
        node.end()
        node = begun(name)
        node.do(puts("t", keys[most:]))
    return node, bytes


def in_small_tables(name, keys):
    """How long the puts take of which each small table gets as many as it has."""
    node = begun(name)
    seconds = 0
    for number, at in enumerate(range(0, len(keys), 2 * small)):
        own = keys[at:at + 2 * small]
        node.do([f"create_table t{number} []"] + puts(f"t{number}", own[:small]))
        seconds += node.do(puts(f"t{number}", own[small:]))
    node.end()
    return seconds


orders = {"in order": list(range(large + timed)), "in no order": random.Random(1).sample(range(10 * large), large + timed)}
for order, keys in orders.items():
    node, bytes = filled(f"large {order}", keys[:large])
    in_large = node.do(puts("t", keys[large:])) / timed
    node.end()
    counted = max(timed // small, 1) * small
    in_small = in_small_tables(f"small {order}", (keys * 2)[:2 * counted]) / counted
    print(f"keys {order}: a put takes {in_large * 1e6:.1f} microseconds in a table of {large:,}, "
          f"{in_small * 1e6:.1f} in one of {small:,}, ratio {in_large / in_small:.2f}; {bytes:.0f} bytes of memory a record")

node = begun("many")
replies, _ = node.ask([f"create_table t{number} []" for number in range(1001)])
if replies != [b"{atomic,ok}\n"] * 1000 + [b"{aborted,{limit,tables}}\n"]:
    sys.exit(f"a table too many was answered {replies[1000]}, and one before it {min(replies[:1000])}")
node.do(["delete_table t7", "create_table t1000 []"])
node.end()
print("the 1001st table is refused, and made once another one is deleted")
PY
