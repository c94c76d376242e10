#!/bin/sh
# Load, the thirteen queries, memory and size on disk, of ssbcube and of the databases that are installed: SQLite, PostgreSQL and
# ClickHouse; and from the tables, eval and bench/plain.rs. At the top of the repository, once crates/ssbcube/out/ssbcube is built:
#
#     sh bench/databases.sh SCALE [ROUNDS]
#
# It makes the tables of that scale, seed 1, measures ROUNDS times (5) in turn, compares each answer with ours, and prints the tables
# of docs/BENCHMARKS.md. What each database is asked is in databases.py. It needs rustc, python3 and /usr/bin/time; a database that is
# not installed is left out. Another program is taken from the folder SSBCUBE_AT; all files are made in a folder of TMPDIR.
set -u
cd "$(dirname "$0")/.." || exit 1
[ "$#" -ge 1 ] || { echo 'the words are SCALE [ROUNDS]'; exit 2; }
top=$PWD
PATH=${SSBCUBE_AT:-$top/crates/ssbcube/out}:$PATH
for tool in ssbcube rustc python3 /usr/bin/time; do
    command -v "$tool" > /dev/null || { echo "$tool is not there"; exit 1; }
done
scratch=$(mktemp -d)
trap 'rm -rf "$scratch"' EXIT
chmod 755 "$scratch"
cd "$scratch" || exit 1
rustc -O --edition 2021 -o tables "$top/bench/tables.rs" || exit 1
rustc -O --edition 2021 -o plain "$top/bench/plain.rs" || exit 1
./tables "$1" 1 text || exit 1
# Without the bar after the last field, which some databases take for one column more.
sed -i 's/|$//' text/*.tbl
python3 "$top/bench/databases.py" "$1" "${2:-5}"
