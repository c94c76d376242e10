#!/bin/sh
# Damaged files: bytes of seven warehouses are changed at random, and the built program runs commands on each. At the top of the
# repository, once crates/ssbcube/out/ssbcube is built: sh bench/images.sh [TRIES [SEED]]
#
# It needs strace and python3. What has to hold each time is in images.py. Another program is taken from the folder SSBCUBE_AT.
set -u
cd "$(dirname "$0")/.." || exit 1
for tool in strace python3; do
    command -v "$tool" > /dev/null || { echo "$tool is not on the path"; exit 1; }
done
tables=$PWD/crates/user_pages/data
script=$PWD/bench/images.py
PATH=${SSBCUBE_AT:-$PWD/crates/ssbcube/out}:$PATH
scratch=$(mktemp -d)
trap 'rm -rf "$scratch"' EXIT
cd "$scratch" || exit 1
python3 "$script" "$tables" "$@"
