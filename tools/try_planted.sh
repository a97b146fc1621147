#!/bin/sh
# Tries the planted faults that are not tried at each check, in a copy of the repository: sh tools/try_planted.sh [CRATE..]
# Without a crate, those of all. The last line of each crate says how many were refused.
set -eu
cd "$(dirname "$0")/.."
copy=$(mktemp -d)
trap 'rm -rf "$copy"' EXIT
git clone -q . "$copy"
[ $# -gt 0 ] || set -- $(ls tools/planted)
for crate in "$@"; do
    rm -rf "$copy/crates/$crate/must-fail"
    mkdir "$copy/crates/$crate/must-fail"
    cp "$copy/tools/planted/$crate"/*.edit "$copy/crates/$crate/must-fail/"
done
cd "$copy"
rt must-fail "$@"
