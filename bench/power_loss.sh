#!/bin/bash
# Looks for synced records after the loss of power, in three runs on ext4: behind a sync, in a run over a closed log, and after a sync
# that failed. The file system stands in the image of a loop device, and a power loss is a copy of the image as it is then, while
# the file system stays mounted. Skipped where loop devices may not be mounted.
. "$(dirname -- "$0")/prepare.sh"
needs mkfs.ext4 losetup mount fstrim
program=$here/../mnesia_cli
disk=$dir/disk
small=$dir/small
data=$disk/data
loop=
pid=
lost=0
mkdir "$disk" "$small"

clean_up() {
    stop
    detach
    mountpoint -q "$small" && umount "$small"
    rm -rf -- "$dir"
}
trap clean_up EXIT

attach() {
    loop=$(losetup --find --show "$1") && mount "$loop" "$disk"
}

detach() {
    mountpoint -q "$disk" && umount "$disk"
    [ -n "$loop" ] && losetup --detach "$loop"
    loop=
}

# Ends the node where there is one.
stop() {
    [ -n "$pid" ] && { kill -9 "$pid" && wait "$pid"; } 2>/dev/null
    pid=
}

skip() {
    echo "skipped: $1"
    exit 0
}

# A file system of its own for each run.
make_image() {
    rm -f "$1"
    truncate --size=32M "$1" && mkfs.ext4 -q "$1"
}

begin() {
    coproc node { exec "$program" "$data"; }
    pid=$node_PID
    read -r _ <&"${node[0]}" # {started,0}
}

# The reply of the node to a command.
ask() {
    echo "$1" >&"${node[1]}"
    read -r reply <&"${node[0]}"
}

expect() {
    ask "$1"
    [ "$reply" = "$2" ] || echo "${1:0:60} was answered $reply"
}

# Copies the image and ends the program. What the system writes from then on counts for nothing.
lose_power() {
    cp --sparse=always "$1" "$dir/lost"
    stop
    detach
}

# Starts the program on what was left, and counts which of the records 1 to $2 are not there.
look() {
    attach "$dir/lost"
    found=$(for ((key = 1; key <= $2; key++)); do echo "get t $key"; done \
        | "$program" "$data" 2>"$dir/reason" | grep -c "^\[{t,[0-9]*,.*}\]$")
    detach
    echo "$1: synced $2, lost $(($2 - found)) $(cat "$dir/reason")"
    lost=$((lost + $2 - found))
}

make_table() {
    expect 'create_table t []' '{atomic,ok}'
}

# What is written later has its length in the file system's journal by then, and its bytes not yet on the device.
behind_a_sync() {
    make_table
    expect 'put t {t,1,synced}' '{atomic,ok}'
    expect sync_log ok
    expect 'put t {t,2,later}' '{atomic,ok}'
    sleep 7.5
}

over_a_closed_log() {
    expect 'put t {t,2,later}' '{atomic,ok}'
    sleep 7.5
}

# The image stands on a file system with no room but for the blocks that are in use, so new blocks of the log are refused. The device
# takes one block at a time, since a write of which it takes a part counts as done.
attach_small() {
    make_image "$dir/image"
    mount -t tmpfs -o size=40M tmpfs "$small" && cp --sparse=never "$dir/image" "$small/image" || return 1
    attach "$small/image" || return 1
    echo 4 2>/dev/null >"/sys/block/${loop#/dev/}/queue/max_sectors_kb" && fstrim "$disk"
}

# How many commits the sync that was answered well covers is what the start behind the failed one tells: that of the table, and one for
# each record.
after_a_failed_sync() {
    make_table
    expect 'put t {t,1,synced}' '{atomic,ok}'
    expect sync_log ok
    expect "put t {t,2,[$(printf 'x%0100d,' {1..200})x]}" '{atomic,ok}'
    dd if=/dev/zero of="$small/filler" bs=4k 2>/dev/null
    ask sync_log
    rm "$small/filler"
    [ "$reply" = "{error,{file,'LATEST.LOG'}}" ] || return 1
    ask start
    kept=$((${reply//[!0-9]/} - 1))
    expect sync_log ok
}

built
make_image "$dir/image" || exit 1
attach "$dir/image" 2>/dev/null || skip "this user may not mount a loop device"
mkdir "$data"
begin
behind_a_sync
lose_power "$dir/image"
look "behind a sync" 1

make_image "$dir/image"
attach "$dir/image"
mkdir "$data"
printf '%s\n' 'create_table t []' 'put t {t,1,closed}' | "$program" "$data" >/dev/null
begin
over_a_closed_log
lose_power "$dir/image"
look "over a closed log" 1

if attach_small; then
    mkdir "$data"
    begin
    if after_a_failed_sync; then
        lose_power "$small/image"
        look "after a failed sync" "$kept"
    else
        echo "after a failed sync: skipped, as the device refused no write"
    fi
else
    echo "after a failed sync: skipped, as no such device can be made"
fi
[ "$lost" -eq 0 ]
