#!/bin/bash
# Plays the transcripts of crates/transcripts with the program over a real directory, all but those with crashes and
# faults, which only a disk in memory can show. What is printed, on standard error too, the statuses and the files
# should be those of the transcripts. The first difference ends it.
. "$(dirname -- "$0")/prepare.sh"
built
agreed=0
skipped=0

# A transcript without its comments, each file's bytes on one line.
steps() {
    grep -v '^%' "$1" | sed -z 's/\n= more / /g'
}

bytes() {
    printf '%b' "$(tr -d ' ' <<<"$1" | sed 's/../\\x&/g')"
}

differs() {
    echo "$name: $*"
    exit 1
}

empty_directory() {
    rm -rf "$dir/run"
    mkdir -p "$dir/run/dir"
}

# A run of which nothing is told yet: its script, its replies and its reason on standard error are in files.
begin() {
    is_told=yes
    words=dir
    status=0
    : >"$dir/script"
    : >"$dir/replies"
    : >"$dir/reason"
}

# Plays the run that was told, if any.
end() {
    [ "$is_told" = yes ] || return 0
    is_told=no
    read -ra list <<<"$words"
    (cd "$dir/run" && exec "$here/../mnesia_cli" "${list[@]}") <"$dir/script" >"$dir/printed" 2>"$dir/error"
    came=$?
    diff "$dir/replies" "$dir/printed" || differs "the replies differ"
    [ "$came" -eq "$status" ] || differs "status $came in place of $status"
    diff "$dir/reason" "$dir/error" || differs "standard error differs"
}

# The run has ended, and the file of this name has these bytes.
holds() {
    end
    bytes "$2" | cmp - "$dir/run/dir/$1" || differs "$1 differs"
}

lacks() {
    end
    [ ! -e "$dir/run/dir/$1" ] || differs "$1 is there"
}

letters() {
    head -c "$1" /dev/zero | tr '\0' x
    echo
}

step() {
    case $1 in
        '') ;;
        '>') echo >>"$dir/script" ;;
        '> '*) printf '%s\n' "${1#> }" >>"$dir/script" ;;
        '= again') end; begin ;;
        '= anew') end; empty_directory; begin ;;
        '= words'*) words=${1#= words} ;;
        '= line '*) letters "${1#= line }" >>"$dir/script" ;;
        '= status 0') status=0 ;;
        '= status 1') status=1; echo "usage: mnesia_cli DIR" >"$dir/reason" ;;
        '= damaged '*) read -r _ _ file at <<<"$1"; status=5; echo "damaged $file at $at" >"$dir/reason" ;;
        '= too long '*) status=7; echo "line ${1#= too long } is too long" >"$dir/reason" ;;
        '= file '*) read -r _ _ file hex <<<"$1"; bytes "$hex" >"$dir/run/dir/$file" ;;
        '= holds '*) read -r _ _ file hex <<<"$1"; holds "$file" "$hex" ;;
        '= no file '*) lacks "${1#= no file }" ;;
        '= '*) differs "no such directive: $1" ;;
        *) printf '%s\n' "$1" >>"$dir/replies" ;;
    esac
}

for transcript in "$here"/../crates/transcripts/data/*.txt; do
    name=$(basename "$transcript")
    if grep -qE '^= (crash|or|fail|lose|source|sink) ' "$transcript"; then
        skipped=$((skipped + 1))
        continue
    fi
    steps "$transcript" >"$dir/steps"
    empty_directory
    begin
    while IFS= read -r line; do
        step "$line"
    done <"$dir/steps"
    end
    agreed=$((agreed + 1))
done
echo "$agreed transcripts agree with the program, $skipped with crashes or faults are skipped"
