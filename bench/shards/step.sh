#!/bin/sh
# A step of one part, in the folder of the parts: `step.sh load K` makes the warehouse K.dev of the tables in tables and loads
# parts/K.tbl; `step.sh cuboids K` chooses and stores cuboids; `step.sh ask K N` writes the partial reports K.*.part of N parts.
# Each step may be interrupted at any point and given again: what is there already is kept or made once more, the same.
set -eu
step=$1 part=$2
device=$part.dev

# Writes what a command prints to a file that gets its name once it is whole.
save() {
    file=$1
    shift
    "$@" > "$file.$$"
    mv "$file.$$" "$file"
}

case $step in
load)
    if ! ssbcube status "$device" > /dev/null 2>&1; then
        rm -f "$device" "$device.new"
        ssbcube create "$device.new" --tables tables --rows 2000000 > /dev/null
        mv "$device.new" "$device"
    fi
    ssbcube load "$device" --first 1 --quiet "parts/$part.tbl" > /dev/null
    ;;
cuboids)
    ssbcube choose "$device" 8 > /dev/null
    ssbcube upkeep "$device" > /dev/null
    ;;
ask)
    parts=$3
    for query in 1.1 1.2 1.3 2.1 2.2 2.3 3.1 3.2 3.3 3.4 4.1 4.2 4.3; do
        save "$part.$query.part" ssbcube report "$device" "$query" --partial "$part/$parts"
    done
    save "$part.cube.part" ssbcube cube "$device" --partial "$part/$parts" --set cube \
        --by c_nation,s_region,p_category,d_year --agg count,sum:revenue,min:quantity,max:profit,avg:discounted
    ;;
esac
