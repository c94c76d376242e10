#!/bin/sh
# Planted faults: each edit of bench/planted is made in a copy of the repository, and the tests of `test_hostile` have to fail there, without
# any proof. At the top of the repository: sh bench/planted.sh [NAME..]
#
# It needs rt, git and python3, and takes a minute or two for each. How an edit is written, and what is printed, is in planted.py. RT names
# another command for rt.
set -u
cd "$(dirname "$0")/.." || exit 1
for tool in git python3; do
    command -v "$tool" > /dev/null || { echo "$tool is not on the path"; exit 1; }
done
scratch=$(mktemp -d)
trap 'rm -rf "$scratch"' EXIT
trap 'exit 130' INT TERM
git ls-files -co --exclude-standard crates crates.txt HANDLES > "$scratch/files"
tar -cf - -T "$scratch/files" | tar -xf - -C "$scratch" || exit 1
python3 bench/planted.py bench/planted "$scratch" "$@"
