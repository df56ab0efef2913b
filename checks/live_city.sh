#!/usr/bin/env bash
# A short morning in a made city: riders and drivers play against the program that is built at this path, and its log is
# audited. It takes about half a minute.
if [ $# -ne 1 ]; then
    echo "usage: checks/live_city.sh PROGRAM" >&2
    exit 2
fi
exec python3 -B "$(dirname "$0")/../tools/live_city.py" "$1" --side 8 --vehicles 8 --requests 40 --minutes 20 --speed 120
