#!/usr/bin/env bash
# Makes an archive of the built programs with their pages and tools, which needs no kit: Python 3 for the tools, and the C library for the programs.
#
#     checks/release.sh FOLDER
#
# writes FOLDER/ride_dispatch-VERSION.tar.gz, VERSION being the first digits of the sources' hash, and says whether its programs are those
# that another build of the same sources gave, where FOLDER has the archive of one. In the archive: SHA256SUMS, and VERSION with kit and hash.
set -u
if [ $# != 1 ]; then
    echo "usage: checks/release.sh FOLDER" >&2
    exit 2
fi
top="$(cd "$(dirname "$0")/.." && pwd)"
programs=(ride_dispatch ride_resume)
for program in "${programs[@]}"; do
    if [ ! -x "$top/crates/$program/out/$program" ]; then
        echo "checks/release.sh: $program is not built: rt ci builds it, or rt run in crates/$program" >&2
        exit 2
    fi
done
mkdir -p "$1" || exit 2
into="$(cd "$1" && pwd)"
cd "$top" || exit 2

# The hash of what the programs are made of: the code, its definitions and proofs, the list of crates, and the kit.
kit="$(rt version 2> /dev/null | head -n 1)"
sources="$({ echo "$kit"; git ls-files -z crates crates.txt HANDLES | LC_ALL=C sort -z | xargs -0 sha256sum; } | sha256sum | cut -d ' ' -f 1)"
name="ride_dispatch-${sources:0:12}"
stage="$(mktemp -d)"
trap 'rm -rf "$stage"' EXIT
mkdir "$stage/$name"
git ls-files -z README.md SECURITY.md CHANGELOG.md docs examples tools inspector control_room | xargs -0 cp --parents -t "$stage/$name" || exit 1
for program in "${programs[@]}"; do
    cp "$top/crates/$program/out/$program" "$stage/$name/$program" || exit 1
done
printf 'kit: %s\nsources: %s\ncommit: %s\n' "$kit" "$sources" "$(git rev-parse HEAD)" > "$stage/$name/VERSION"
(cd "$stage/$name" && find . -type f ! -name SHA256SUMS -print0 | LC_ALL=C sort -z | xargs -0 sha256sum > SHA256SUMS) || exit 1

archive="$into/$name.tar.gz"
if [ -f "$archive" ]; then
    for program in "${programs[@]}"; do
        before="$(tar -xzOf "$archive" "$name/$program" | sha256sum)"
        now="$(sha256sum < "$stage/$name/$program")"
        if [ "$before" = "$now" ]; then
            echo "$program is, byte for byte, that of the archive that stands there"
        else
            echo "$program is not that of the archive that stands there, though its sources are the same"
        fi
    done
fi
# The same files give the same archive.
tar -C "$stage" --sort=name --mtime='2000-01-01 00:00:00Z' --owner=0 --group=0 --numeric-owner -cf - "$name" | gzip -n > "$archive.new" || exit 1
mv "$archive.new" "$archive"
echo "$archive: $(stat -c %s "$archive") bytes, sha256 $(sha256sum < "$archive" | cut -d ' ' -f 1)"
