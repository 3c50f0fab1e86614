#!/bin/bash
# Looks at the system calls of runs over a closed log: before the first commit is a mark and a sync of the log's data, each put is one
# write, and a sync_log one sync; a table that is made is a write and a sync. The replies come in one write at the script's end. Then the
# log is closed: a sync, a mark and a sync.
. "$(dirname -- "$0")/prepare.sh"
needs strace
built
mkdir "$dir/data"

printf '%s\n' 'create_table t []' 'put t {t,0,closed}' | "$here/../mnesia_cli" "$dir/data" >"$dir/replies"

# The calls of a run of these lines: a word for each call on the log, where a mark is the write of four bytes, and for each write of
# replies the first word. Any other call stands as it is.
calls_of() {
    printf '%s\n' "$@" \
        | strace -y -e trace=write,pwrite64,fsync,fdatasync -e signal=none -o "$dir/calls" "$here/../mnesia_cli" "$dir/data" >"$dir/replies"
    sed -E \
        -e '/^\+\+\+/d' \
        -e 's/^p?write(64)?\([0-9]+<.*LATEST\.LOG>, .*\) += 4$/mark/' \
        -e 's/^p?write(64)?\([0-9]+<.*LATEST\.LOG>, .*/write/' \
        -e 's/^fdatasync\([0-9]+<.*LATEST\.LOG>\) += 0$/sync/' \
        -e 's/^write\(1<.*>, "[^a-z]*([a-z]+).*/\1/' "$dir/calls" | xargs
}

expect() {
    echo "$1"
    case $1 in
        *"$2") ;;
        *) echo "the calls are others than expected"; exit 1 ;;
    esac
}

expect "$(calls_of 'put t {t,1,a}' 'put t {t,2,b}' sync_log)" 'started mark sync write write sync atomic sync mark sync'
expect "$(calls_of 'create_table u []' 'put u {u,1,a}')" 'started mark sync write sync write atomic sync mark sync'
