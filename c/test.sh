#!/bin/sh
# Builds the examples with the library, runs them under valgrind, and compares each report with what the program prints,
# each file that is made or loaded byte for byte with the program's, and what is left of a load that was cut off at each
# record of its journal with what the program finds there.
#
#   SSBCUBE_AT  the folder of the program ssbcube; crates/ssbcube/out if left out
#   HEAP        the library with the toolchain's allocation calls, liblibc_c.a in its folder c
set -eu
cd "$(dirname "$0")"
program=${SSBCUBE_AT:-../crates/ssbcube/out}/ssbcube
library=../crates/c_library/out/libc_library.a
data=../crates/user_pages/data
heap=${HEAP:?is to name the library of the allocation calls}
work=$(mktemp -d)
trap 'rm -rf "$work"' EXIT

for name in example changes; do
    gcc -std=c11 -O2 -Wall -Wextra -Werror -o "$work/$name" $name.c "$library" "$heap"
done
"$program" create "$work/star.dev" --sectors 512 --customer "$data/star_customer.tbl" \
    --supplier "$data/star_supplier.tbl" --part "$data/star_part.tbl" --date "$data/star_date.tbl" > "$work/said"
"$program" load "$work/star.dev" --first 1 --rows 100 "$data/star_lineorder.tbl" >> "$work/said"

# the same file, made and loaded by the library
changes() {
    valgrind --quiet --leak-check=full --error-exitcode=9 "$work/changes" "$@"
}
changes "$work/made.dev" create 512 "$data/star_customer.tbl" "$data/star_supplier.tbl" "$data/star_part.tbl" \
    "$data/star_date.tbl" > "$work/created"
cp "$work/made.dev" "$work/empty_star.dev"
changes "$work/made.dev" load 1 100 "$data/star_lineorder.tbl" > "$work/loaded"
cmp "$work/made.dev" "$work/star.dev"

# a load again changes nothing
changes "$work/made.dev" load 1 100 "$data/star_lineorder.tbl" > "$work/again"
cmp "$work/made.dev" "$work/star.dev"

# A load that was cut off after each of its records leaves the first batches, no fewer than after the records before.
records=$(cut -d' ' -f1 "$work/loaded")
batches_before=0
for cut in $(seq 0 "$records"); do
    cp "$work/empty_star.dev" "$work/cut.dev"
    RECORDS=$cut "$work/changes" "$work/cut.dev" load 1 100 "$data/star_lineorder.tbl" > "$work/said_cut"
    batches=$("$program" status "$work/cut.dev" | sed -n 's/^batches //p')
    [ "$batches" -ge "$batches_before" ] && [ "$batches" -le 4 ]
    "$program" check "$work/cut.dev" > "$work/said_cut"
    batches_before=$batches
done
[ "$batches_before" = 4 ]

# and a creation, no warehouse or the one without batches
for cut in $(seq 0 "$(cut -d' ' -f1 "$work/created")"); do
    rm -f "$work/cut.dev"
    RECORDS=$cut "$work/changes" "$work/cut.dev" create 512 "$data/star_customer.tbl" "$data/star_supplier.tbl" \
        "$data/star_part.tbl" "$data/star_date.tbl" > "$work/said_cut"
    if "$program" status "$work/cut.dev" > "$work/said_cut" 2> "$work/refused"; then
        cmp "$work/cut.dev" "$work/empty_star.dev"
    else
        grep -q '^fault 5 ' "$work/refused"
    fi
done

reports=0
faults=0

# unchanged FAULT FILE ...: the library refuses a change with this line of a fault, and the file stays as it was
unchanged() {
    said=$1
    shift
    cp "$1" "$work/before"
    status=0
    changes "$@" > "$work/library" 2> "$work/fault" || status=$?
    [ "$status" = 1 ] && [ "$(cat "$work/fault")" = "fault $said" ] || {
        echo "wanted fault $said of $*, not $status: $(cat "$work/fault")"
        exit 1
    }
    cmp "$1" "$work/before"
    faults=$((faults + 1))
}
unchanged "6 AlreadyFormatted" "$work/made.dev" create 512 "$data/star_customer.tbl" "$data/star_supplier.tbl" "$data/star_part.tbl" \
    "$data/star_date.tbl"
unchanged "23 Gap" "$work/made.dev" load 6 100 "$data/star_lineorder.tbl"
unchanged "22 Repeated" "$work/made.dev" load 1 50 "$data/star_lineorder.tbl"
unchanged "24 BadQuery" "$work/made.dev" load 0 100 "$data/star_lineorder.tbl"
unchanged "24 BadQuery" "$work/made.dev" load 1 65537 "$data/star_lineorder.tbl"
unchanged "15 UnknownCustomer row 2" "$work/made.dev" load 5 100 "$data/wrong.tbl"
echo '1|2|3|' > "$work/short.tbl"
unchanged "9 FieldCount line 1" "$work/made.dev" load 5 100 "$work/short.tbl"

example() {
    valgrind --quiet --leak-check=full --error-exitcode=9 "$work/example" "$@"
}

# same FORMAT AS_OF ...: the report of the library is that of the program
same() {
    format=$1; as_of=$2; what=$3
    shift 3
    upto=$([ "$as_of" -lt 0 ] || echo "--as-of $as_of")
    example "$work/star.dev" "$format" "$as_of" "$what" "$@" > "$work/library"
    if [ "$what" = report ]; then
        "$program" report "$work/star.dev" "$1" $upto --format "$format" > "$work/program"
    else
        set="${1:-plain}"; by=$2; agg=$3
        shift 3
        "$program" cube "$work/star.dev" $upto --set "$set" ${by:+--by "$by"} --agg "$agg" --format "$format" "$@" \
            > "$work/program"
    fi
    cmp "$work/library" "$work/program"
    reports=$((reports + 1))
}

# refused NUMBER FILE ...: the library refuses with the fault of this number, and prints nothing
refused() {
    number=$1
    shift
    status=0
    example "$@" > "$work/library" 2> "$work/fault" || status=$?
    [ "$status" = 1 ] && [ "$(cat "$work/fault")" = "fault $number" ] && [ ! -s "$work/library" ] || {
        echo "wanted fault $number of $*, not $status: $(cat "$work/fault")"
        exit 1
    }
    faults=$((faults + 1))
}

for format in bars csv tsv json; do
    for number in 1.1 2.1 3.1 4.3; do same $format -1 report $number; done
    same $format 2 cube cube c_region,d_year count,sum:revenue
    same $format -1 cube rollup d_year,p_brand1 avg:revenue,min:profit 'd_year:1992|1998' 'quantity:0|50'
done
same json 0 report 1.1
same bars -1 cube '' '' count

# answers from a stored cuboid
"$program" choose "$work/star.dev" 3 >> "$work/said"
"$program" upkeep "$work/star.dev" >> "$work/said"
"$program" explain "$work/star.dev" --by c_nation,p_category --agg sum:revenue > "$work/plan"
grep -q '^plan view' "$work/plan"
same csv -1 cube plain c_nation,p_category sum:revenue
same json 3 cube cube c_region,d_year avg:revenue

# queries by ship mode: by a scan, then from a cuboid that groups by it
same bars -1 cube plain lo_shipmode sum:revenue
same json 2 cube rollup d_year,lo_shipmode count 'lo_shipmode:A|S'
cp "$work/star.dev" "$work/first.dev"
"$program" migrate "$work/star.dev" >> "$work/said"
"$program" views "$work/star.dev" 507 >> "$work/said"
"$program" upkeep "$work/star.dev" >> "$work/said"
"$program" explain "$work/star.dev" --by lo_shipmode --agg sum:revenue > "$work/plan"
grep -q '^plan view 507 ' "$work/plan"
same bars -1 cube plain lo_shipmode sum:revenue
same csv 4 cube cube p_mfgr,lo_shipmode avg:quantity lo_shipmode=RAIL
mv "$work/first.dev" "$work/star.dev"

refused 24 "$work/star.dev" bars -1 report 9.9
refused 24 "$work/star.dev" xml -1 report 1.1
refused 24 "$work/star.dev" bars -1 cube cube d_year count no_such=1
refused 25 "$work/star.dev" bars 5 report 1.1
refused 25 "$work/star.dev" bars 4294967296 report 1.1
head -c 1000 "$work/star.dev" > "$work/cut.dev"
refused 8 "$work/cut.dev" bars -1 report 1.1
head -c 262144 /dev/zero > "$work/zeros.dev"
refused 5 "$work/zeros.dev" bars -1 report 1.1
: > "$work/empty.dev"
refused 8 "$work/empty.dev" bars -1 report 1.1
echo "$reports reports as the program prints them, $records records of a load, $faults faults"
