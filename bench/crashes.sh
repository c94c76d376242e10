#!/bin/sh
# Power cuts and kills of the real program: each command that writes is run once under strace, and of its own record of calls on the
# file every image is made that a crash may leave: after each write and each sync, with what was not synced lost, kept, or kept of
# every other sector. The program then opens each. At the top of the repository, once crates/ssbcube/out/ssbcube is built:
# sh bench/crashes.sh
#
# It needs strace and python3. What each image has to hold is in crashes.py. Another program is taken from the folder SSBCUBE_AT.
set -u
cd "$(dirname "$0")/.." || exit 1
for tool in strace python3; do
    command -v "$tool" > /dev/null || { echo "$tool is not on the path"; exit 1; }
done
tables=$PWD/crates/user_pages/data
script=$PWD/bench/crashes.py
PATH=${SSBCUBE_AT:-$PWD/crates/ssbcube/out}:$PATH
scratch=$(mktemp -d)
trap 'rm -rf "$scratch"' EXIT
cd "$scratch" || exit 1
python3 "$script" "$tables"
