#!/usr/bin/env bash
# What the built programs answer to words that are not in order, one of them no UTF-8, and that options may stand in any order.
#
#     checks/words.sh [PROGRAM [RESUME]]
#
# `rt run` in crates/ride_dispatch and crates/ride_resume builds them; ride_resume is left out where it is not built.
here="$(cd "$(dirname "$0")/.." && pwd)"
program="${1:-$here/crates/ride_dispatch/out/ride_dispatch}"
resume="${2:-$here/crates/ride_resume/out/ride_resume}"
failed=0
for given in "$program" ${2:+"$resume"}; do
    if [ ! -x "$given" ] || [ -d "$given" ]; then
        printf 'words.sh: %s is no program\n' "$given" >&2
        exit 2
    fi
done

# The status and the text that these words should give: status 2 and `words refused`.
refused() {
    said="$("$program" "$@" 2> /dev/null)"
    status=$?
    if [ "$status" != 2 ] || [ "$said" != "words refused" ]; then
        printf '%s: words %q: status %s, %s\n' "${program##*/}" "$*" "$status" "$said"
        failed=1
    fi
}

refused
refused plan
refused $'\xff'
refused replay --map $'map\xff' --fleet f --feed r
refused book --feed r --map m
refused replay --map --fleet f --feed r
for workers in +2 0 17 abc 2.0 -1 0000000000000000002; do
    refused serve --map m --fleet f --riders r --drivers d --workers "$workers" --desks 1
done

if [ ! -x "$resume" ]; then
    echo 'ride_resume is left out: crates/ride_resume/out/ride_resume is not built'
    exit "$failed"
fi
program="$resume"
scratch="$(mktemp -d)"
trap 'rm -rf "$scratch"' EXIT
data="$here/crates/ride_dispatch/data"
log="$scratch/log"
printf 'log 1 feeds 2 desks 1\nf1 clock 5 = now 5\nf1 end\nf2 end\nd1 end\n' > "$log"

# These words are in order: a log that is finished is given back, with status 0.
taken() {
    "$program" "$@" > "$scratch/out" 2> "$scratch/said"
    status=$?
    if [ "$status" != 0 ] || [ -s "$scratch/said" ] || ! cmp -s "$scratch/out" "$log"; then
        printf '%s: words %q: status %s, %s\n' "${program##*/}" "$*" "$status" "$(cat "$scratch/said")"
        failed=1
    fi
}

names=(--map --fleet --log --riders --drivers --workers)
values=("$data/map.gr" "$data/fleet.txt" "$log" /dev/null /dev/null 2)
# Options in each order that begins elsewhere, forwards and backwards; parted from their values and joined to them.
for first in 0 1 2 3 4 5; do
    forwards=() backwards=() joined=()
    for step in 0 1 2 3 4 5; do
        place=$(((first + step) % 6))
        forwards+=("${names[place]}" "${values[place]}")
        backwards=("${names[place]}" "${values[place]}" "${backwards[@]}")
        joined+=("${names[place]}=${values[place]}")
    done
    taken "${forwards[@]}"
    taken "${backwards[@]}"
    taken "${joined[@]}"
    # Without this option, without its value, without both, with it twice, and with it by another name.
    refused "${forwards[@]:2}"
    refused "${forwards[@]:1}"
    refused "${names[first]}" "${forwards[@]:2}"
    refused "${backwards[@]:0:11}"
    refused "${joined[@]:1}"
    refused "${forwards[@]}" "${forwards[@]:0:2}"
    refused "${joined[@]}" "${joined[0]}"
    refused "${forwards[@]:2}" "${names[first]}s" "${values[first]}"
    refused "${forwards[@]:2}" "${names[first]#-}" "${values[first]}"
    refused "${forwards[@]:2}" "${names[first]#--}" "${values[first]}"
    refused "${forwards[@]:2}" "${names[first]^^}" "${values[first]}"
done
all=() but_workers=()
for place in 0 1 2 3 4 5; do
    but_workers=("${all[@]}")
    all+=("${names[place]}" "${values[place]}")
done
for workers in 1 16 000000000000000002; do
    taken "${but_workers[@]}" --workers "$workers"
done
for workers in 0 17 -1 +2 two 1.5 '' ' ' 0x2 0000000000000000002 99999999999999999999; do
    refused "${but_workers[@]}" --workers "$workers"
    refused "${but_workers[@]}" "--workers=$workers"
done
refused
refused --help
refused -h
refused help
refused "${all[@]}" --help
refused --version
refused --map=m
refused --
refused ''
refused resume "${all[@]}"
refused serve "${all[@]}"
refused "${all[@]}" more
refused "${all[@]}" ''
refused "${all[@]}" --desks 1
refused "${all[@]}" --feed /dev/null
refused $'\xff'
refused "${but_workers[@]}" --workers $'2\xff'
refused "${but_workers[@]:0:8}" --drivers $'\xff' --workers 2
exit "$failed"
