#!/usr/bin/env bash
# The built program at the edge of the system: files that are missing, folders, full and closed outputs, names that are no
# names, pipes that end in mid-line, files without end, and little memory. Each run must end by itself, with the status of
# docs/formats.md and never by a signal. It takes some minutes. `rt run` in crates/ride_dispatch builds the program.
here="$(cd "$(dirname "$0")/.." && pwd)"
program="$here/crates/ride_dispatch/out/ride_dispatch"
map="$here/crates/ride_dispatch/data/map.gr"
fleet="$here/crates/ride_dispatch/data/fleet.txt"
feed="$here/crates/ride_dispatch/data/feed.txt"
scratch="$(mktemp -d)"
trap 'rm -rf "$scratch"' EXIT
failed=0
runs=0

# The status that a run ended with is one of those that are named.
expect() {
    what="$1"
    status="$2"
    shift 2
    runs=$((runs + 1))
    for wanted in "$@"; do
        [ "$status" = "$wanted" ] && return
    done
    printf '%s: status %s, not %s\n' "$what" "$status" "$*"
    failed=1
}

# A replay over these three files ends with one of the statuses that follow.
replay() {
    what="$1"
    timeout 300 "$program" replay --map "$2" --fleet "$3" --feed "$4" > "$scratch/out" 2> "$scratch/said"
    expect "$what" "$?" "${@:5}"
}

# A session over these two feeds ends with one of the statuses that follow.
serve() {
    what="$1"
    timeout 300 "$program" serve --map "$map" --fleet "$fleet" --riders "$2" --drivers "$3" --workers 2 --desks 2 \
        > "$scratch/out" 2> "$scratch/said"
    expect "$what" "$?" "${@:4}"
}

# An audit of this log ends with one of the statuses that follow.
audit() {
    what="$1"
    timeout 300 "$program" audit --map "$map" --fleet "$fleet" --log "$2" > "$scratch/out" 2> "$scratch/said"
    expect "$what" "$?" "${@:3}"
}

replay 'a plain replay' "$map" "$fleet" "$feed" 0
cp "$scratch/out" "$scratch/log"
audit 'the audit of its log' "$scratch/log" 0

# Names.
for place in 1 2 3; do
    for name in "$scratch/missing" "$scratch" "" $'\xff\xfe' "$scratch/a/b" "$(printf 'x%.0s' $(seq 5000))"; do
        files=("$map" "$fleet" "$feed")
        files[place - 1]="$name"
        replay "name $(printf %q "${name:0:40}") at place $place" "${files[@]}" 5 2
    done
done
if [ "$(id -u)" != 0 ]; then
    touch "$scratch/closed"
    chmod 0 "$scratch/closed"
    replay 'a file without leave to read' "$scratch/closed" "$fleet" "$feed" 5
elif command -v setpriv > /dev/null; then
    mkdir "$scratch/open"
    cp "$map" "$fleet" "$feed" "$program" "$scratch/open"
    chmod -R a+rX "$scratch" "$scratch/open"
    chmod 700 "$scratch/open/map.gr"
    setpriv --reuid 65534 --clear-groups "$scratch/open/ride_dispatch" replay --map "$scratch/open/map.gr" \
        --fleet "$scratch/open/fleet.txt" --feed "$scratch/open/feed.txt" > /dev/null 2>&1
    expect 'a file without leave to read' "$?" 5
fi

# Outputs.
for words in "replay --feed $feed" "audit --log $scratch/log" "serve --riders $feed --drivers /dev/null --workers 1 --desks 1"; do
    # shellcheck disable=SC2086
    "$program" $words --map "$map" --fleet "$fleet" > /dev/full 2> /dev/null
    expect "${words%% *} into a full output" "$?" 6
    # shellcheck disable=SC2086
    "$program" $words --map "$map" --fleet "$fleet" >&- 2> /dev/null
    expect "${words%% *} with a closed output" "$?" 6
    # shellcheck disable=SC2086
    ("$program" $words --map "$map" --fleet "$fleet" 2> /dev/null; echo "$?" > "$scratch/status") | true
    expect "${words%% *} into a pipe that nobody reads" "$(cat "$scratch/status")" 6 0
done
"$program" > /dev/full 2> /dev/null
expect 'no words and a full output' "$?" 2
"$program" replay --map "$map" --fleet "$fleet" --feed "$feed" > /dev/null 2>&-
expect 'a closed standard error' "$?" 0
"$program" 2>&- > /dev/null
expect 'words refused with a closed standard error' "$?" 2

# Pipes.
mkfifo "$scratch/riders" "$scratch/drivers"
(printf 'request 7 2 4 1 600 300\nbat' > "$scratch/riders") &
(printf 'clo' > "$scratch/drivers") &
serve 'pipes whose writers end in mid-line' "$scratch/riders" "$scratch/drivers" 0
wait 2> /dev/null
cp "$scratch/out" "$scratch/log"
audit 'the audit of what they wrote' "$scratch/log" 0
(sh -c "printf 'request 7 2 4 1 600 300\nba'; kill -9 \$\$" > "$scratch/riders") 2> /dev/null &
(printf '' > "$scratch/drivers") &
serve 'a pipe whose writer is killed in mid-line' "$scratch/riders" "$scratch/drivers" 0
wait 2> /dev/null

# Files without end, and beyond their limits.
replay 'a map without end' /dev/zero "$fleet" "$feed" 3 8
(yes c > "$scratch/riders") 2> /dev/null &
replay 'a map of comments without end' "$scratch/riders" "$fleet" "$feed" 8
wait 2> /dev/null
(yes '#' > "$scratch/riders") 2> /dev/null &
replay 'a fleet file without end' "$map" "$scratch/riders" "$feed" 8
wait 2> /dev/null
replay 'a feed of zeros without end' "$map" "$fleet" /dev/zero 8
(yes 'clock 1' > "$scratch/riders") 2> /dev/null &
replay 'a feed without end' "$map" "$fleet" "$scratch/riders" 8
wait 2> /dev/null
(yes 'clock 1' > "$scratch/riders") 2> /dev/null &
(yes 'clock 2' > "$scratch/drivers") 2> /dev/null &
serve 'two feeds without end' "$scratch/riders" "$scratch/drivers" 8
wait 2> /dev/null
yes '' | head -n 1000001 > "$scratch/long"
replay 'a feed of 1,000,001 lines' "$map" "$fleet" "$scratch/long" 8
audit 'a log of zeros without end' /dev/zero 7 8
{
    echo 'log 1 feeds 1 desks 1'
    yes 'f1 clock 0 = now 0' | head -n 2100000
} > "$scratch/long"
audit 'a log of 2,100,001 lines' "$scratch/long" 8 7

# Little memory, in twenty steps; where there is too little to start the program at all the loader says 127.
for step in $(seq 20); do
    limit=$((step * 1500))
    (ulimit -v "$limit"; exec "$program" replay --map "$map" --fleet "$fleet" --feed "$feed") > "$scratch/out" 2> "$scratch/said"
    expect "a replay in $limit KB" "$?" 0 1 127
    (ulimit -v "$((limit * 4))"; exec "$program" serve --map "$map" --fleet "$fleet" --riders "$feed" --drivers /dev/null --workers 2 --desks 2) \
        > "$scratch/out" 2> "$scratch/said"
    expect "a session in $((limit * 4)) KB" "$?" 0 1 127
done

printf '%s runs\n' "$runs"
exit "$failed"
