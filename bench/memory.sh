#!/bin/sh
# Out of memory: each allocation of each command of a warehouse's life is refused in turn, alone and with all later ones, in the built
# program. At the top of the repository, once crates/ssbcube/out/ssbcube is built: sh bench/memory.sh [EVERY]
#
# It needs gcc and python3. EVERY 10 tries each tenth allocation. What has to hold each time is in memory.py. Another program is taken
# from the folder SSBCUBE_AT.
set -u
cd "$(dirname "$0")/.." || exit 1
for tool in gcc python3; do
    command -v "$tool" > /dev/null || { echo "$tool is not on the path"; exit 1; }
done
tables=$PWD/crates/user_pages/data
script=$PWD/bench/memory.py
PATH=${SSBCUBE_AT:-$PWD/crates/ssbcube/out}:$PATH
scratch=$(mktemp -d)
trap 'rm -rf "$scratch"' EXIT
gcc -O2 -shared -fPIC -o "$scratch/refuse.so" bench/refuse.c || exit 1
cd "$scratch" || exit 1
python3 "$script" "$tables" "$scratch/refuse.so" "${1:-1}"
