#!/usr/bin/env bash
# What the built programs say on standard error where their status is not 0.
#
#     checks/messages.sh [PROGRAM [RESUME]]
#
# `rt run` in crates/ride_dispatch and crates/ride_resume builds them; ride_resume is left out where it is not built.
here="$(cd "$(dirname "$0")/.." && pwd)"
program="${1:-$here/crates/ride_dispatch/out/ride_dispatch}"
resume="${2:-$here/crates/ride_resume/out/ride_resume}"
for given in "$program" ${2:+"$resume"}; do
    if [ ! -x "$given" ] || [ -d "$given" ]; then
        printf 'messages.sh: %s is no program\n' "$given" >&2
        exit 2
    fi
done
map="$here/crates/ride_dispatch/data/map.gr"
fleet="$here/crates/ride_dispatch/data/fleet.txt"
feed="$here/crates/ride_dispatch/data/feed.txt"
scratch="$(mktemp -d)"
trap 'rm -rf "$scratch"' EXIT
failed=0
: > "$scratch/none"

# The status and the line on standard error that these words should give; standard output goes to the file $output.
output=/dev/null
says() {
    wanted_status="$1"
    wanted="$2"
    shift 2
    said="$("$program" "$@" 2>&1 >"$output")"
    status=$?
    if [ "$status" != "$wanted_status" ] || [ "$said" != "$wanted" ]; then
        printf '%s %q: status %s, %s\n' "${program##*/}" "$*" "$status" "$said"
        failed=1
    fi
}

# The same of a session that goes on; the options behind have other values than these. A log with a batch that is open is the first.
[ -x "$resume" ] || resume=''
broken="$scratch/broken"
printf 'log 1 feeds 2 desks 1\nf1 request 7 2 4 1 600 300 = waiting\nf1 batch = asked 1\nd1 open 1 at 0 requests 7 plans 1@0\n' > "$broken"
goes_on() {
    [ -n "$resume" ] || return
    local wanted_status="$1" wanted="$2" name
    local -A value=([--map]="$map" [--fleet]="$fleet" [--log]="$broken" [--riders]="$feed" [--drivers]=/dev/null [--workers]=2)
    local -a options=()
    shift 2
    while [ $# -gt 1 ]; do
        value[$1]="$2"
        shift 2
    done
    for name in --map --fleet --log --riders --drivers --workers; do
        options+=("$name" "${value[$name]}")
    done
    program="$resume" says "$wanted_status" "$wanted" "${options[@]}"
}

says 0 '' replay --map "$map" --fleet "$fleet" --feed "$feed"
# Words that are refused: what is wrong with the options of a word, and all words where there is none.
replay='usage: ride_dispatch replay --map MAP --fleet FLEET --feed FEED'
serve='usage: ride_dispatch serve --map MAP --fleet FLEET --riders FEED --drivers FEED --workers 1..16 --desks 1..2'
says 2 "ride_dispatch: replay: --fleet is missing; $replay" replay --map "$map"
says 2 "ride_dispatch: replay: --feed has no value; $replay" replay --map "$map" --fleet "$fleet" --feed
says 2 "ride_dispatch: replay: --map stands twice; $replay" replay --map "$map" --map "$map" --feed "$feed"
says 2 "ride_dispatch: replay: no such option: --flet; $replay" replay --map "$map" --flet "$fleet" --feed "$feed"
says 2 "ride_dispatch: replay: $map is no option; $replay" replay "$map" --fleet "$fleet" --feed "$feed"
says 2 "ride_dispatch: replay: no such option: --mapp; $replay" "replay" "--mapp=$map" --fleet "$fleet" --feed "$feed"
session=(serve --map "$map" --fleet "$fleet" --riders "$feed" --drivers "$feed")
for workers in 0 17 018 99999999999999999; do
    says 2 "ride_dispatch: serve: --workers $workers is not within 1..16; $serve" "${session[@]}" --workers "$workers" --desks 1
    says 2 "ride_dispatch: serve: --workers $workers is not within 1..16; $serve" "${session[@]}" "--workers=$workers" --desks 1
done
for workers in +2 abc 2.0 -1 0000000000000000002 ''; do
    says 2 "ride_dispatch: serve: --workers $workers is no number of 1 to 18 digits within 1..16; $serve" "${session[@]}" --workers "$workers" --desks 1
done
says 2 "ride_dispatch: serve: --workers -1 is no number of 1 to 18 digits within 1..16; $serve" "${session[@]}" --workers=-1 --desks 1
says 2 "ride_dispatch: serve: --desks two is no number of 1 to 18 digits within 1..2; $serve" "${session[@]}" --workers 1 --desks two
# A word that begins with a hyphen is no value, unless it is joined to its option; a hyphen alone is the name of a file.
says 2 "ride_dispatch: replay: --map has no value; $replay" replay --map --fleet "$fleet" --feed "$feed"
says 2 "ride_dispatch: replay: --map has no value; $replay" replay --map "--fleet=$fleet" --feed "$feed"
says 2 "ride_dispatch: replay: --feed has no value; $replay" replay --map "$map" --feed --fleet "$fleet"
says 2 "ride_dispatch: serve: --workers has no value; $serve" "${session[@]}" --workers --desks 1
for value in -f --f --; do
    says 2 "ride_dispatch: replay: --feed has no value, since $value begins with a hyphen: --feed=$value gives it; $replay" \
        replay --map "$map" --feed "$value" --fleet "$fleet"
    says 5 "ride_dispatch: $value could not be read: No such file or directory (os error 2)" replay --map "$map" "--feed=$value" --fleet "$fleet"
done
says 5 'ride_dispatch: - could not be read: No such file or directory (os error 2)' replay --map "$map" --feed - --fleet "$fleet"
# Words that are not UTF-8: the first of them, with each such byte as it is; and what would leave the line.
says 2 'ride_dispatch: a word is not UTF-8: \xff' $'\xff'
says 2 'ride_dispatch: a word is not UTF-8: m\xc3' replay --map $'m\xc3' --fleet $'f\xff' --feed "$feed"
says 2 'ride_dispatch: a word is not UTF-8: --workers=2\xfe' "${session[@]}" $'--workers=2\xfe' --desks 1
says 2 "ride_dispatch: replay: m\\n\\u{1b}é is no option; $replay" replay $'m\n\eé' --fleet "$fleet" --feed "$feed"
says 2 'ride_dispatch: audit: --map is missing; usage: ride_dispatch audit --map MAP --fleet FLEET --log LOG' audit
says 2 'ride_dispatch: book: no such option: --map; usage: ride_dispatch book --feed FEED' book --map "$map"
says 2 'ride_dispatch: league: --fleet is missing; usage: ride_dispatch league --map MAP --fleet FLEET --second FLEET --feed FEED' league --map "$map"
words='  replay --map MAP --fleet FLEET --feed FEED: answers a feed line by line and writes the log
  ahead --map MAP --fleet FLEET --feed FEED --reach 1..1000000: writes where to send idle vehicles, in place of the log of a replay
  audit --map MAP --fleet FLEET --log LOG: says whether each line of a log is right
  serve --map MAP --fleet FLEET --riders FEED --drivers FEED --workers 1..16 --desks 1..2: answers riders and drivers at once and writes the log as it happens
  drill --side 2..100 --vehicles 0..1000 --requests 0..16000 --seed 0..2147483647: plays a day of a city that it draws, and writes a line of it
  book --feed FEED: makes a plain feed of one in which riders book ahead
  league --map MAP --fleet FLEET --second FLEET --feed FEED: plays two companies that share their requests
docs/guide.md says how they are used, docs/formats.md what each file holds.'
says 2 "ride_dispatch: a word is missing; these are all, with their options in any order:
$words"
says 2 "ride_dispatch: no such word: plan; these are all, with their options in any order:
$words" plan

# Maps and fleet files that are refused: the line, what stands there, and what would be right.
refused_map() {
    printf '%b' "$2" > "$scratch/no_map"
    says 3 "$scratch/no_map$1" replay --map "$scratch/no_map" --fleet "$fleet" --feed "$feed"
    goes_on 3 "$scratch/no_map$1" --map "$scratch/no_map"
}
refused_map ": no line 'p sp NODES ARCS' before the first arc" 'a 1 2 60\n'
refused_map ":2: a second problem line" 'p sp 2 1\np sp 2 1\na 1 2 60\n'
refused_map ":1: neither a problem, nor an arc, nor a comment: p sp 0 0" 'p sp 0 0\n'
refused_map ":2: node 99 is not on the map (1 to 2)" 'p sp 2 1\na 1 99 60\n'
refused_map ":2: 1000000001 seconds are out of range (0 to 1000000000)" 'p sp 2 1\na 1 2 1000000001\n'
refused_map ": the problem line says 2 arcs, 1 stand there" 'p sp 2 2\na 1 2 60\n'
refused_map ":1: more than 500000 nodes or 2000000 arcs: p sp 500001 0" 'p sp 500001 0\n'
refused_fleet() {
    printf '%b' "$2" > "$scratch/no_fleet"
    says 4 "$scratch/no_fleet$1" replay --map "$map" --fleet "$scratch/no_fleet" --feed "$feed"
    says 4 "$scratch/no_fleet$1" league --map "$map" --fleet "$fleet" --second "$scratch/no_fleet" --feed "$feed"
    goes_on 4 "$scratch/no_fleet$1" --fleet "$scratch/no_fleet"
}
nodes="$(sed -n 's/^p sp \([0-9]*\) .*/\1/p' "$map")"
refused_fleet ":2: no such setting: penlty" '# a comment\nset penlty 3\n'
refused_fleet ":1: a setting has one number: set penalty" 'set penalty\n'
refused_fleet ":1: a vehicle has four numbers or five (ID SEATS NODE READY CHAIRS): vehicle" 'vehicle\n'
refused_fleet ":1: neither a setting, nor a vehicle, nor a comment: taxi 1 4 1 0" 'taxi 1 4 1 0\n'
refused_fleet ":2: batch is set twice" 'set batch 3\nset batch 4\n'
refused_fleet ":2: vehicle 7 stands twice" 'vehicle 7 4 1 0\nvehicle 7 4 1 0\n'
refused_fleet ":1: node 999999 is not on the map (1 to $nodes)" 'vehicle 7 4 999999 0\n'
refused_fleet ":1: batch 129 is out of range (1 to 128)" 'set batch 129\n'
refused_fleet ":1: a vehicle has 1 to 16 seats and 0 to 4 chairs, and is ready by second 1000000000: vehicle 7 17 1 0" 'vehicle 7 17 1 0\n'
# Bytes that are not UTF-8 stand as they are, and hide nothing where they stand in another line.
refused_map ":1: neither a problem, nor an arc, nor a comment: p \\xff\\xfe" 'p \xff\xfe\n'
refused_map ":3: node 3 is not on the map (1 to 2)" 'c \xff\np sp 2 1\na 1 3 60\n'
refused_fleet ":2: no such setting: \\xffé" '# \xfe\nset \xffé 3\n'
refused_fleet ":1: neither a setting, nor a vehicle, nor a comment: \\u{1b}[2J" '\x1b[2J\r\n'
says 5 "ride_dispatch: $scratch/missing could not be read: No such file or directory (os error 2)" replay --map "$scratch/missing" --fleet "$fleet" --feed "$feed"
says 5 "ride_dispatch: $scratch could not be read: Is a directory (os error 21)" replay --map "$map" --fleet "$fleet" --feed "$scratch"
says 5 "ride_dispatch: $scratch could not be read: Is a directory (os error 21)" book --feed "$scratch"

# A wrong log: its first wrong line as it stands, what of it is not as it was due, and the line that was, cut at 400 bytes.
morning="$here/examples"
wrong_log() {
    sed "$3" "$morning/morning.log" > "$scratch/wrong"
    line="$(sed -n "${1}p" "$scratch/wrong")"
    says 7 "$scratch/wrong:$1: $2: $line$4" audit --map "$morning/map.gr" --fleet "$morning/fleet.txt" --log "$scratch/wrong"
    goes_on 7 "$scratch/wrong:$1: $2: $line$4" --map "$morning/map.gr" --fleet "$morning/fleet.txt" --log "$scratch/wrong" --riders "$scratch"
}
# The line that was due is the example's own.
other_due() {
    wrong_log "$1" "$2" "$3" "; due: $(sed -n "${1}p" "$morning/morning.log")"
}
# Of commits any is due whose seats cost least: what is determined of it is compared.
commit_due() {
    sed "$3" "$morning/morning.log" > "$scratch/wrong"
    line="$(sed -n "${1}p" "$scratch/wrong")"
    over=(--map "$morning/map.gr" --fleet "$morning/fleet.txt" --log "$scratch/wrong")
    said="$("$program" audit "${over[@]}" 2>&1 >/dev/null)"
    case "$said" in
    "$scratch/wrong:$1: $2: $line; due: $4 seats "*" prices "*" pays"*" outcomes "*) goes_on 7 "$said" "${over[@]}" ;;
    *)
        printf 'line %s of a wrong log: %s\n' "$1" "$said"
        failed=1
        ;;
    esac
}
says 7 "$feed:1: this is no line of a log, to the byte: $(head -n 1 "$feed")" audit --map "$map" --fleet "$fleet" --log "$feed"
wrong_log 2 'who speaks here may not do so now' '2s/^f1/f2/' ''
other_due 3 'another reply is due' '3s/waiting$/refused 2/'
other_due 7 'another number, time, request or version is due' '7s/1@0/1@1/'
commit_due 8 "these seats are no seating of the batch's copies, or cost something else" '8s/cost 925/cost 924/' 'd1 commit 1 cost 925'
commit_due 8 'the prices and pays do not prove that no seating costs less' '8s/101:380/101:379/' 'd1 commit 1 cost 925'
commit_due 27 'the prices and pays do not prove that no seating costs less' '27s/108:145/108:144/' 'd1 commit 3 cost 1005'
other_due 8 'another outcome is due' '8s/103:confirmed$/103:away/'
# Bytes that are not UTF-8, in the wrong line and in another, and control characters.
wrong_bytes() {
    printf '%b' "$2" > "$scratch/bytes"
    says 7 "$scratch/bytes$1" audit --map "$map" --fleet "$fleet" --log "$scratch/bytes"
    goes_on 7 "$scratch/bytes$1" --log "$scratch/bytes"
}
head='log 1 feeds 1 desks 1\n'
wrong_bytes ':2: this is no line of a log, to the byte: f1 \xff\xc3' "$head"'f1 \xff\xc3\nf1 end\n'
wrong_bytes ':2: this is no line of a log, to the byte: f1\tend\r' "$head"'f1\tend\r\n\xff\n'
wrong_bytes ':1: this is no line of a log, to the byte: l\u{0}\u{7f}é\xff' 'l\0000\x7fé\xff\n'
wrong_bytes ':2: another reply is due: f1 clock 5 = now 6; due: f1 clock 5 = now 5' "$head"'f1 clock 5 = now 6\nf1 b\xff\n'
# The line is named where standard output takes nothing, too.
if [ -w /dev/full ]; then
    output=/dev/full
    other_due 3 'another reply is due' '3s/waiting$/refused 2/'
    wrong_bytes ':2: this is no line of a log, to the byte: f1 \xff' "$head"'f1 \xff\n'
    output=/dev/null
fi
# A log that cannot be read twice is told without it.
mkfifo "$scratch/pipe"
sed '3s/waiting$/refused 2/' "$morning/morning.log" > "$scratch/pipe" &
says 7 "$scratch/pipe:3: another reply is due" audit --map "$morning/map.gr" --fleet "$morning/fleet.txt" --log "$scratch/pipe"
says 7 "$scratch/none:1: this is no line of a log, to the byte: " audit --map "$map" --fleet "$fleet" --log "$scratch/none"
head -c 1048577 /dev/zero | tr '\0' '#' > "$scratch/long"
cp "$scratch/long" "$scratch/long_fleet"
says 8 "ride_dispatch: $scratch/long has more than 1,048,576 bytes" replay --map "$map" --fleet "$scratch/long" --feed "$feed"
says 8 "ride_dispatch: $scratch/long has more than 1,048,576 bytes" league --map "$map" --fleet "$fleet" --second "$scratch/long" --feed "$feed"
yes '' | head -n 1000001 > "$scratch/long"
says 8 "ride_dispatch: $scratch/long has more than 67,108,864 bytes or 1,000,000 lines" league --map "$map" --fleet "$fleet" --second "$fleet" --feed "$scratch/long"
says 8 "ride_dispatch: $scratch/long has more than 67,108,864 bytes or 1,000,000 lines" book --feed "$scratch/long"
if [ -w /dev/full ]; then
    output=/dev/full
    says 6 'ride_dispatch: standard output could not be written: No space left on device (os error 28)' replay --map "$map" --fleet "$fleet" --feed "$feed"
fi
output=/dev/null

# Where no thread can be started, a session of two feeds says that it is not live, and ends as it would. Root has no such limit.
open="$scratch/open"
mkdir "$open"
cp "$map" "$fleet" "$feed" "$broken" "$open"
cp "$program" "$open/ride_dispatch"
chmod -R a+rX "$scratch"
drop=()
[ "$(id -u)" = 0 ] && drop=(setpriv --reuid 65534 --regid 65534 --clear-groups)
without_threads() {
    local name="$1"
    shift
    command -v prlimit > /dev/null && command -v setpriv > /dev/null || return
    said="$("${drop[@]}" prlimit --nproc=1 "$open/$name" "$@" --map "$open/map.gr" --fleet "$open/fleet.txt" \
        --riders "$open/feed.txt" --drivers /dev/null --workers 2 2>&1 > /dev/null)"
    status=$?
    wanted="$name: no thread can be started, so that this session is not live: riders are read to their end first"
    if [ "$status" != 0 ] || [ "$said" != "$wanted" ]; then
        printf '%s without threads: status %s, %s\n' "$name" "$status" "$said"
        failed=1
    fi
}
without_threads ride_dispatch serve --desks 2
if [ -n "$resume" ]; then
    cp "$resume" "$open/ride_resume"
    without_threads ride_resume --log "$open/broken"
fi
says 0 '' serve --map "$map" --fleet "$fleet" --riders "$feed" --drivers /dev/null --workers 2 --desks 2

# A session that goes on: words, which stand without a word before them.
if [ -z "$resume" ]; then
    echo 'ride_resume is left out: crates/ride_resume/out/ride_resume is not built'
    exit "$failed"
fi
program="$resume"
all='--map MAP --fleet FLEET --log LOG --riders FEED --drivers FEED --workers 1..16'
usage="usage: ride_resume $all"
given=(--map "$map" --fleet "$fleet" --log "$broken" --riders "$feed" --drivers /dev/null --workers 2)
goes_on 0 ''
says 2 "ride_resume: options are missing; these are all, in any order:
  ride_resume $all: goes on with the session of a log, which it writes anew with what comes then
docs/guide.md says how they are used, docs/formats.md what each file holds."
for place in 0 2 4 6 8 10; do
    name="${given[place]}"
    says 2 "ride_resume: $name is missing; $usage" "${given[@]:0:place}" "${given[@]:place + 2}"
    says 2 "ride_resume: $name stands twice; $usage" "${given[@]}" "$name" "${given[place + 1]}"
    says 2 "ride_resume: $name has no value; $usage" "${given[@]:0:place}" "${given[@]:place + 2}" "$name"
    [ "$place" = 10 ] || says 2 "ride_resume: $name has no value; $usage" "${given[@]:0:place}" "$name" "${given[@]:place + 2}"
    says 2 "ride_resume: no such option: ${name}s; $usage" "${given[@]:0:place}" "${given[@]:place + 2}" "${name}s=x"
done
says 2 "ride_resume: --fleet is missing; $usage" "--map=$map"
says 2 "ride_resume: no such option: --desks; $usage" "${given[@]}" --desks 1
says 2 "ride_resume: no such option: --help; $usage" --help
says 2 "ride_resume: serve is no option; $usage" serve "${given[@]}"
says 2 "ride_resume: -h is no option; $usage" -h
for workers in 0 17; do
    goes_on 2 "ride_resume: --workers $workers is not within 1..16; $usage" --workers "$workers"
done
for workers in +2 abc 2.0 -1 0000000000000000002 ''; do
    goes_on 2 "ride_resume: --workers $workers is no number of 1 to 18 digits within 1..16; $usage" --workers "$workers"
done
goes_on 2 "ride_resume: --drivers has no value, since -d begins with a hyphen: --drivers=-d gives it; $usage" --drivers -d
goes_on 2 'ride_resume: a word is not UTF-8: \xff' --drivers $'\xff'

# Files that cannot be read: each in its turn.
for name in --map --fleet --log --riders --drivers; do
    goes_on 5 "ride_resume: $scratch/missing could not be read: No such file or directory (os error 2)" "$name" "$scratch/missing"
    goes_on 5 "ride_resume: $scratch could not be read: Is a directory (os error 21)" "$name" "$scratch"
done
goes_on 5 "ride_resume: $scratch/a could not be read: No such file or directory (os error 2)" --riders "$scratch/a" --drivers "$scratch/b"
goes_on 5 "ride_resume: $scratch could not be read: Is a directory (os error 21)" --log "$scratch" --riders "$scratch/missing"

# Logs: one that is none, one over another map, one through a pipe; what is torn is not looked at.
cp "$feed" "$scratch/no_log"
goes_on 7 "$scratch/no_log:1: this is no line of a log, to the byte: $(head -n 1 "$feed")" --log "$scratch/no_log"
goes_on 7 "$scratch/none:1: this is no line of a log, to the byte: " --log "$scratch/none"
printf 'log 1 feeds 2 des' > "$scratch/torn"
goes_on 7 "$scratch/torn:1: this is no line of a log, to the byte: log 1 feeds 2 des" --log "$scratch/torn"
{
    sed '2s/waiting$/refused 4/' "$broken"
    printf 'f1 clo'
} > "$scratch/torn"
goes_on 7 "$scratch/torn:2: another reply is due: f1 request 7 2 4 1 600 300 = refused 4; due: f1 request 7 2 4 1 600 300 = waiting" --log "$scratch/torn"
(cat "$scratch/torn" > "$scratch/pipe") > /dev/null 2>&1 &
goes_on 7 "$scratch/pipe:2: another reply is due" --log "$scratch/pipe"
kill $! 2> /dev/null
printf 'p sp 2 0\n' > "$scratch/two.gr"
goes_on 7 "$broken:2: another reply is due: f1 request 7 2 4 1 600 300 = waiting; due: f1 request 7 2 4 1 600 300 = refused 2" --map "$scratch/two.gr"

# Limits, also of a log, and of either feed, whose lines are those that its log leaves; both names are said, since both are read at once.
goes_on 8 "ride_resume: $scratch/long_fleet has more than 1,048,576 bytes" --fleet "$scratch/long_fleet" --log "$scratch/missing"
both='has more than 67,108,864 bytes, or more lines than its log leaves of 1,000,000'
goes_on 8 "ride_resume: $scratch/long or /dev/null $both" --riders "$scratch/long"
goes_on 8 "ride_resume: $feed or $scratch/long $both" --drivers "$scratch/long"
{
    echo 'log 1 feeds 2 desks 1'
    yes 'f1 clock 0 = now 0' | head -n 2100000
} > "$scratch/long_log"
limit='has more than 1,073,741,824 bytes or 2,100,000 lines, or answers more than 1,000,000 commands of a feed'
goes_on 8 "ride_resume: $scratch/long_log $limit" --log "$scratch/long_log" --riders "$scratch"
rm "$scratch/long_log"

# Outputs, and what stands where a log cannot be finished: some line of the program's own.
if [ -w /dev/full ]; then
    output=/dev/full
    goes_on 6 'ride_resume: standard output could not be written: No space left on device (os error 28)'
    goes_on 6 'ride_resume: standard output could not be written: No space left on device (os error 28)' --riders "$scratch"
    output=/dev/null
fi
said="$("$resume" "${given[@]}" 2>&1 >&-)"
status=$?
if [ "$status" != 6 ] || [ "$said" != 'ride_resume: standard output could not be written: Bad file descriptor (os error 9)' ]; then
    printf 'a session that goes on with a closed output: status %s, %s\n' "$status" "$said"
    failed=1
fi

# A log that cannot be finished.
unfinished='memory was wanting, or the log tells of a cut or of a batch that was given up'
for end in 'f1 cut' 'd2 cut' 'd1 abandon 1'; do
    {
        sed '1s/desks 1/desks 2/' "$broken"
        echo "$end"
    } > "$scratch/broken_off"
    said="$("$resume" "${given[@]:0:4}" --log "$scratch/broken_off" "${given[@]:6}" 2>&1 > /dev/null)"
    status=$?
    if [ "$status" != 1 ] || [ "$said" != "ride_resume: ${given[9]} was the last file that was asked for: $unfinished" ]; then
        printf 'a session that goes on behind %s: status %s, %s\n' "$end" "$status" "$said"
        failed=1
    fi
done

# Want of memory: a map that takes more than there is. The last file that was asked for is said.
printf 'p sp 500000 0\n' > "$scratch/large"
said="$(
    ulimit -v 40000
    "$resume" --map "$scratch/large" "${given[@]:2}" 2>&1 > /dev/null
)"
status=$?
names="^ride_resume: ($scratch/large|$fleet|$broken) was the last file that was asked for when memory was wanting\$"
if [ "$status" != 1 ] || [[ ! "$said" =~ $names ]]; then
    printf 'a session that goes on without memory: status %s, %s\n' "$status" "$said"
    failed=1
fi
exit "$failed"
