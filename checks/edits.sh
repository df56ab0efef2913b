#!/usr/bin/env bash
# Tries the wrong bodies of checks/edits, those of some crates or of all: in a copy of the repository the prover must refuse each.
# Each crate is proved first; what earlier checks on this machine kept of it is not proved again.
#
#     checks/edits.sh [CRATE..]
set -eu
top="$(cd "$(dirname "$0")/.." && pwd)"
copy="$(mktemp -d)"
trap 'rm -rf "$copy"' EXIT
if [ $# = 0 ]; then
    mapfile -t crates < <(ls "$top/checks/edits")
else
    crates=("$@")
fi
cp "$top/crates.txt" "$top/HANDLES" "$copy"
mkdir "$copy/crates"
tar -C "$top/crates" --exclude=out --exclude=must-fail -c . | tar -C "$copy/crates" -x
for crate in "${crates[@]}"; do
    # Its edits of the gate, where it has some, are tried by the gate.
    rm -rf "$copy/crates/$crate/must-fail"
    cp -r "$top/checks/edits/$crate" "$copy/crates/$crate/must-fail"
done
cd "$copy"
rt must-fail "${crates[@]}"
