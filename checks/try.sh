#!/usr/bin/env bash
# Runs the program over files of your own without proving anything, with its checks on: its words, as they would be given to it.
#
#     checks/try.sh replay --map MAP --fleet FLEET --feed FEED
#
# It compiles the program each time, which takes two and a half minutes of one processor, so two minutes by the clock or, on a busy machine, many.
# A file is copied; a pipe cannot be. It takes `rt` of the Rattle kit, which says on standard error how the run ended.
usage="usage: checks/try.sh WORD [OPTION VALUE]..., as checks/try.sh replay --map MAP --fleet FLEET --feed FEED"
if [ "$1" = --help ] || [ "$1" = -h ]; then
    sed -n 's/^# \{0,1\}//p' "$0" | tail -n +2
    exit 0
fi
if [ $# = 0 ]; then
    echo "$usage" >&2
    exit 2
fi
if ! command -v rt > /dev/null; then
    echo "checks/try.sh: rt of the Rattle kit is not on the path" >&2
    exit 2
fi
data=()
words=()
for word in "$@"; do
    if [ -f "$word" ]; then
        name="$(basename -- "$word")"
        [[ "$name" =~ ^[A-Za-z0-9][A-Za-z0-9._-]*$ && " ${words[*]} " != *" $name "* ]] || name="file$((${#data[@]} / 2))"
        data+=(--data "$name=$(realpath -- "$word")")
        words+=("$name")
    elif [ -p "$word" ]; then
        echo "checks/try.sh: $word is a pipe, and only files are copied" >&2
        exit 2
    else
        words+=("$word")
    fi
done
cd "$(dirname "$0")/../crates/ride_dispatch" || exit 2
exec rt try --seconds 300 "${data[@]}" -- "${words[@]}"
