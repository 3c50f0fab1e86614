#!/bin/sh
# A run that is typed: each reply comes before the next line is sent. And a pipe whose reader goes away: the program ends with status 3
# and says why.
. "$(dirname -- "$0")/prepare.sh"
needs python3
built
mkdir "$dir/data" "$dir/gone"

python3 - "$here/../mnesia_cli" "$dir" <<'PY'
import os, select, subprocess, sys

program, dir = sys.argv[1:]
SESSION = [("create_table t []", "{atomic,ok}"), ("put t {t,1,a}", "{atomic,ok}"), ("get t 1", "[{t,1,a}]"), ("sync_log", "ok"),
           ("gex", "{badarg,2}"), ("stop", "stopped"), ("start", "{started,2}"), ("get t 1", "[{t,1,a}]")]


def reply(run):
    if not select.select([run.stdout], [], [], 10)[0]:
        sys.exit("no reply came within ten seconds")
    return os.read(run.stdout.fileno(), 65536).decode().rstrip("\n")


run = subprocess.Popen([program, os.path.join(dir, "data")], stdin=subprocess.PIPE, stdout=subprocess.PIPE)
if reply(run) != "{started,0}":
    sys.exit("the start was answered otherwise")
for line, expected in SESSION:
    run.stdin.write(f"{line}\n".encode())
    run.stdin.flush()
    given = reply(run)
    if given != expected:
        sys.exit(f"{line} was answered {given}")
run.stdin.close()
if run.wait() != 0:
    sys.exit(f"the run ended with status {run.returncode}")
print("each reply came before the next line was sent")

read, write = os.pipe()
run = subprocess.Popen([program, os.path.join(dir, "gone")], stdin=subprocess.PIPE, stdout=write, stderr=subprocess.PIPE)
os.close(write)
os.close(read)
_, said = run.communicate(b"create_table t []\n" + b"put t {t,1,a}\n" * 10)
if run.returncode != 3 or said != b"cannot write a reply\n":
    sys.exit(f"with the reader gone the run ended with status {run.returncode} and said {said}")
print("with the reader gone the run ended with status 3")
PY
