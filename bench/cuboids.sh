#!/bin/sh
# What stored cuboids cost and what they spare: a warehouse without cuboids and one with the K views of the greedy choice, or with
# views by name, over the same tables. At the top of the repository, once crates/ssbcube/out/ssbcube is built:
#
#     sh bench/cuboids.sh TABLES [K]           the greedy choice, 8 if left out
#     sh bench/cuboids.sh TABLES VIEW..        views such as nation,nation,ALL,year
#
# TABLES is a folder of the five tables, as bench/tables.rs writes them. It prints the elapsed seconds and the peak memory of the choice,
# upkeep and audit, and for each of the thirteen reports the median of five elapsed and CPU times by a scan and with the cuboids,
# run in turn. Each report has to be the same byte by byte. Another program is taken from the folder SSBCUBE_AT.
set -u
cd "$(dirname "$0")/.." || exit 1
tables=$(cd "$1" && pwd) || exit 1
shift
[ "$#" -gt 0 ] || set -- 8
case $1 in *,*) how=views ;; *) how=choose ;; esac
PATH=${SSBCUBE_AT:-$PWD/crates/ssbcube/out}:$PATH
scratch=$(mktemp -d)
trap 'rm -rf "$scratch"' EXIT
cd "$scratch" || exit 1
bad=0

# Runs a command, and prints its elapsed and CPU seconds and its peak memory.
timed() {
    name=$1
    shift
    /usr/bin/time -f '%e %U %S %M' -o took "$@" > out || { echo "$name failed"; exit 1; }
    awk -v name="$name" '{ printf "%s: %.2f s elapsed, %.2f s CPU time, %d KiB\n", name, $1, $2 + $3, $4 }' took
}

# The medians of elapsed and CPU times in a file, in milliseconds.
medians() {
    elapsed=$(sort -n "$1" | awk 'NR == 3 { print $1 * 1000 }')
    cpu=$(awk '{ print $2 + $3 }' "$1" | sort -n | awk 'NR == 3 { print $1 * 1000 }')
    echo "$elapsed ms elapsed, $cpu ms CPU time"
}

ssbcube create scan.dev --sectors 4000000 --customer "$tables/customer.tbl" --supplier "$tables/supplier.tbl" \
    --part "$tables/part.tbl" --date "$tables/date.tbl" > out || exit 1
timed load ssbcube load scan.dev --first 1 "$tables/lineorder.tbl"
cp --sparse=always scan.dev cuboids.dev
timed "$how $*" ssbcube "$how" cuboids.dev "$@"
cat out
timed upkeep ssbcube upkeep cuboids.dev
timed audit ssbcube audit cuboids.dev
cat out
ssbcube status cuboids.dev

for query in 1.1 1.2 1.3 2.1 2.2 2.3 3.1 3.2 3.3 3.4 4.1 4.2 4.3; do
    : > scan.times
    : > cuboids.times
    for round in 1 2 3 4 5; do
        for one in scan cuboids; do
            /usr/bin/time -a -f '%e %U %S' -o "$one.times" ssbcube report "$one.dev" "$query" > "$one.report" || bad=1
        done
        cmp scan.report cuboids.report || bad=1
    done
    echo "$query: scan $(medians scan.times); with cuboids $(medians cuboids.times)"
done
exit "$bad"
