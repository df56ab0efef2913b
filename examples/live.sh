#!/bin/sh
# Plays two feeds into a session as it runs:
#
#   sh live.sh PROGRAM [FOLDER [SECONDS]]
#
# FOLDER has map.gr, fleet.txt, riders.txt and drivers.txt; where none is given it is the script's own. Each feed goes into a
# named pipe, a command every SECONDS (0.5), and a comment `# wait N` waits N seconds more. The log is printed as it comes and
# audited at the end.

if [ $# -lt 1 ]; then
    echo "usage: sh live.sh PROGRAM [FOLDER [SECONDS]]" >&2
    exit 2
fi
program=$1
folder=${2:-$(dirname "$0")}
gap=${3:-0.5}

pipes=${TMPDIR:-/tmp}/live.$$
mkdir -m 700 "$pipes" || exit 1
players=
trap 'kill $players 2>/dev/null; rm -rf "$pipes"' EXIT
trap 'exit 1' HUP INT PIPE TERM
mkfifo "$pipes/riders" "$pipes/drivers" || exit 1

# Comments are sent too, so that the numbers of bad lines are those of the file.
play() {
    while read -r line; do
        printf '%s\n' "$line"
        case $line in
            '# wait '*) sleep "${line#'# wait '}" ;;
            '' | '#'*) ;;
            *) [ "$gap" = 0 ] || sleep "$gap" ;;
        esac
    done
}

# Each player waits until the program opens its pipe.
play <"$folder/riders.txt" >"$pipes/riders" &
players=$!
play <"$folder/drivers.txt" >"$pipes/drivers" &
players="$players $!"

"$program" serve --map "$folder/map.gr" --fleet "$folder/fleet.txt" --riders "$pipes/riders" --drivers "$pipes/drivers" \
    --workers 2 --desks 1 | tee "$pipes/log"

# Nothing was logged where no session ran.
[ -s "$pipes/log" ] || exit 1
printf 'audit: '
"$program" audit --map "$folder/map.gr" --fleet "$folder/fleet.txt" --log "$pipes/log"
