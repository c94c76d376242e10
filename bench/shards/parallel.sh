#!/bin/sh
# Scale 1 in 8 warehouses under GNU parallel: create, load, choose, upkeep, the partial reports of the thirteen queries and of a CUBE,
# merged, and each compared byte by byte with the report of one warehouse of all rows. The load of part 3 and the reports of part 5
# are killed in the middle the first time, and done again. It prints the seconds of each step.
#
#     sh bench/shards/parallel.sh [SCALE [PARTS]]
#
# It needs GNU parallel and the built program as crates/ssbcube/out/ssbcube, or in the folder that SSBCUBE_AT names.
set -eu
cd "$(dirname "$0")/../.."
scale=${1:-1} parts=${2:-8}
PATH=${SSBCUBE_AT:-$PWD/crates/ssbcube/out}:$PWD/bench/shards:$PATH
command -v parallel > /dev/null || { echo "parallel is not on the path"; exit 1; }
scratch=$(mktemp -d)
trap 'rm -rf "$scratch"' EXIT
cd "$scratch"

timed() {
    name=$1
    shift
    before=$(date +%s%N)
    "$@"
    echo "$name $((($(date +%s%N) - before) / 1000000)) ms"
}

# A step of a part, of which the first attempt is killed where it is the one that is named.
cat > attempt.sh <<'SCRIPT'
#!/bin/sh
if [ "$1.$2" = "$KILLED" ] && [ ! -e "$KILLED.killed" ]; then
    : > "$KILLED.killed"
    exec timeout -s KILL "$AFTER" setsid -w step.sh "$@"
fi
exec step.sh "$@"
SCRIPT
chmod +x attempt.sh

each() {
    seq "$parts" | parallel --will-cite --jobs 4 --retries 3 --halt now,fail=1 "$@"
}

merge_all() {
    for query in 1.1 1.2 1.3 2.1 2.2 2.3 3.1 3.2 3.3 3.4 4.1 4.2 4.3; do
        ssbcube merge ./*".$query.part" > "$query.merged"
    done
}

merge_cube() {
    ssbcube merge ./*.cube.part > cube.merged
}

mkdir tables parts
ssbcube generate --scale "$scale" tables > /dev/null
split -n "l/$parts" --numeric-suffixes=1 -a 1 tables/lineorder.tbl parts/ --additional-suffix=.tbl
ssbcube create whole.dev --tables tables --rows 8000000 > /dev/null
timed "one warehouse, load" ssbcube load whole.dev --first 1 --quiet tables/lineorder.tbl > load.out
tail -1 load.out

export KILLED=load.3 AFTER=0.3
timed "parts, load" each ./attempt.sh load {}
timed "parts, cuboids" each step.sh cuboids {}
export KILLED=ask.5 AFTER=0.05
timed "parts, ask" each ./attempt.sh ask {} "$parts"
timed "merge of the thirteen" merge_all
timed "merge of the cube" merge_cube

differing=0
for query in 1.1 1.2 1.3 2.1 2.2 2.3 3.1 3.2 3.3 3.4 4.1 4.2 4.3; do
    ssbcube report whole.dev "$query" | cmp - "$query.merged" || differing=$((differing + 1))
done
ssbcube cube whole.dev --set cube --by c_nation,s_region,p_category,d_year \
    --agg count,sum:revenue,min:quantity,max:profit,avg:discounted | cmp - cube.merged || differing=$((differing + 1))
ls load.3.killed ask.5.killed
echo "14 reports, $differing that differ from those of one warehouse; lines of the cube: $(($(wc -l < cube.merged) - 2)), bytes of its parts: $(cat ./*.cube.part | wc -c)"
[ "$differing" = 0 ]
