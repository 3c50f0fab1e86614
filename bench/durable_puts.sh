#!/bin/sh
# How many puts a second the program makes durable one by one, beside how often the machine appends 60 bytes and makes them durable:
# 2,000 puts with a sync_log after each, and as many bare appends with fdatasync.
. "$(dirname -- "$0")/prepare.sh"
needs python3
built
mkdir "$dir/data"

python3 - "$here/../mnesia_cli" "$dir" <<'PY'
import os, subprocess, sys, time

program, dir = sys.argv[1:]
puts = 2_000
script = os.path.join(dir, "script")
with open(script, "w") as file:
    file.write("create_table t []\n")
    file.writelines(f"put t {{t,{n % 1000},{n}}}\nsync_log\n" for n in range(puts))
replies = os.path.join(dir, "replies")
with open(script) as source, open(replies, "w") as out:
    start = time.perf_counter()
    run = subprocess.run([program, os.path.join(dir, "data")], stdin=source, stdout=out)
    run_seconds = time.perf_counter() - start
with open(replies) as file:
    synced = sum(1 for line in file if line == "ok\n")
if run.returncode != 0 or synced < puts:
    sys.exit(f"the run ended with status {run.returncode} and {synced} syncs of {puts}")

file = os.open(os.path.join(dir, "appends"), os.O_WRONLY | os.O_CREAT | os.O_APPEND)
start = time.perf_counter()
for _ in range(puts):
    os.write(file, b"x" * 60)
    os.fdatasync(file)
sync_seconds = time.perf_counter() - start
os.close(file)

print(f"puts made durable: {puts / run_seconds:,.0f} a second")
print(f"bare appends with fdatasync: {puts / sync_seconds:,.0f} a second")
print(f"ratio: {sync_seconds / run_seconds:.2f}")
PY
