#!/bin/sh
# Two programs over one warehouse: nothing that was acknowledged is lost, and a program that is refused says why. At the top of the
# repository, once crates/ssbcube/out/ssbcube is built: sh bench/two_programs.sh [TRIES]
#
# 20 tries each of two loads at once; of a load while reports are asked; of a load that is killed while another one is tried again
# until it is let in. Then a file that may not be written, and, where the system lets us mount one, a read-only mount. Another program
# is taken from the folder SSBCUBE_AT.
set -u
cd "$(dirname "$0")/.." || exit 1
tries=${1:-20}
tables=$PWD/crates/user_pages/data
PATH=${SSBCUBE_AT:-$PWD/crates/ssbcube/out}:$PATH
scratch=$(mktemp -d)
trap 'cd /; umount "$scratch/mounted" 2>/dev/null; rm -rf "$scratch"' EXIT
cd "$scratch" || exit 1
bad=0
refused=0
open_elsewhere='fault 2 Device
star.dev: another program has it open'

complain() {
    bad=$((bad + 1))
    echo "$1"
}

# A fact table of so many rows, each of them the first row of the sample with a number of its own.
facts() {
    head -1 "$tables/lineorder.tbl" | awk -v rows="$1" '{ rest = $0; sub(/^[^|]*/, "", rest); for (i = 1; i <= rows; i++) print i rest }'
}
facts 30000 > a.tbl

create() {
    rm -f star.dev
    ssbcube create star.dev --sectors 65536 --customer "$tables/customer.tbl" --supplier "$tables/supplier.tbl" \
        --part "$tables/part.tbl" --date "$tables/date.tbl" > /dev/null || complain 'create failed'
}

# How many batches a load acknowledged, by the lines that it printed.
acknowledged() {
    grep -c '^batch [0-9]* rows [0-9]*$' "$1"
}

# How many batches there are.
batches() {
    ssbcube status star.dev | sed -n 's/^batches //p'
}

# A load that was refused has to say why. Gives true if it was.
is_refused() {
    [ "$1" -eq 1 ] || return 1
    [ "$(cat "$2")" = "$open_elsewhere" ] || complain "a refusal says: $(cat "$2")"
    refused=$((refused + 1))
}

# Two loads at once, each of 100 batches. What is there afterwards is what the two acknowledged.
two_loads() {
    create
    ssbcube load star.dev --first 1 --rows 300 a.tbl > one 2> one.err &
    one=$!
    ssbcube load star.dev --first 1 --rows 300 a.tbl > two 2> two.err &
    two=$!
    wait $one
    status_one=$?
    wait $two
    status_two=$?
    is_refused $status_one one.err || [ $status_one -eq 0 ] || complain "a load ended with $status_one: $(cat one.err)"
    is_refused $status_two two.err || [ $status_two -eq 0 ] || complain "a load ended with $status_two: $(cat two.err)"
    all=$(($(acknowledged one) + $(acknowledged two)))
    [ "$(batches)" -eq "$all" ] || complain "$all batches acknowledged, $(batches) there"
}

# Reports while a load runs. Each is right for some number of batches, or refused; the load may be refused too.
load_and_reports() {
    create
    ssbcube load star.dev --first 1 --rows 300 a.tbl > one 2> one.err &
    one=$!
    for i in 1 2 3 4 5 6 7 8; do
        ssbcube report star.dev 1.1 > report 2> report.err
        status=$?
        is_refused $status report.err || [ $status -eq 0 ] || complain "a report ended with $status: $(cat report.err)"
    done
    wait $one
    status=$?
    is_refused $status one.err || [ $status -eq 0 ] || complain "a load ended with $status: $(cat one.err)"
    [ "$(batches)" -eq "$(acknowledged one)" ] || complain "$(acknowledged one) batches acknowledged, $(batches) there"
}

# A load is killed while another is tried until it is let in. What the first acknowledged is skipped by the second.
killed_load() {
    create
    ssbcube load star.dev --first 1 --rows 300 a.tbl > one 2> one.err &
    one=$!
    sleep "0.0$1"
    (
        while :; do
            ssbcube load star.dev --first 1 --rows 300 a.tbl > two 2> two.err
            status=$?
            [ $status -eq 1 ] && [ "$(cat two.err)" = "$open_elsewhere" ] || exit $status
        done
    ) &
    two=$!
    sleep 0.02
    kill -9 $one 2> /dev/null
    wait $one 2> /dev/null
    wait $two
    status=$?
    [ $status -eq 0 ] || complain "the second load ended with $status: $(cat two.err)"
    skipped=$(grep -c ' skipped$' two)
    [ "$skipped" -ge "$(acknowledged one)" ] || complain "$(acknowledged one) batches acknowledged, $skipped found again"
    [ "$(batches)" -eq 100 ] || complain "$(batches) batches where 100 were loaded"
}

try=0
while [ $try -lt "$tries" ]; do
    try=$((try + 1))
    two_loads
    load_and_reports
    killed_load $((try % 10))
done
echo "$tries tries of each, $refused programs refused since another had the file open"

# A file that may only be read: reports answer as before.
create
ssbcube load star.dev --first 1 --rows 10000 a.tbl > /dev/null
ssbcube report star.dev 1.1 > want
chmod 444 star.dev
if [ "$(id -u)" -eq 0 ] && command -v setpriv > /dev/null; then
    chmod 755 "$scratch"
    setpriv --reuid 65534 --clear-groups ssbcube report star.dev 1.1 > found || complain 'a report of the file of another user failed'
    cmp -s want found || complain 'a report of the file of another user differs'
    echo 'the file of another user: tried'
else
    ssbcube report star.dev 1.1 > found || complain 'a report of a file that may not be written failed'
    cmp -s want found || complain 'a report of a file that may not be written differs'
    echo 'a file that may not be written: tried'
fi
mkdir mounted
if mount -t tmpfs tmpfs mounted 2> /dev/null && cp star.dev mounted && mount -o remount,ro mounted 2> /dev/null; then
    for words in 'report mounted/star.dev 1.1' 'status mounted/star.dev'; do
        ssbcube $words > found || complain "no answer on a read-only mount: $words"
    done
    echo 'a read-only mount: tried'
else
    echo 'a read-only mount: not tried'
fi

echo "$bad complaints"
[ $bad -eq 0 ]
