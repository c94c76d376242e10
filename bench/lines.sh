#!/bin/sh
# Lines of the tables that are one rule apart from good ones: what the built program makes of each is compared with the rules, written out
# once more. At the top of the repository, once crates/ssbcube/out/ssbcube is built: sh bench/lines.sh
#
# It needs gcc and python3. Which lines these are is in lines.py. Another program is taken from the folder SSBCUBE_AT.
set -u
cd "$(dirname "$0")/.." || exit 1
for tool in gcc python3; do
    command -v "$tool" > /dev/null || { echo "$tool is not on the path"; exit 1; }
done
script=$PWD/bench/lines.py
PATH=${SSBCUBE_AT:-$PWD/crates/ssbcube/out}:$PATH
scratch=$(mktemp -d)
trap 'rm -rf "$scratch"' EXIT
gcc -O2 -shared -fPIC -o "$scratch/short.so" bench/short.c -ldl || exit 1
cd "$scratch" || exit 1
python3 "$script" "$scratch/short.so"
