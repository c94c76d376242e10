#!/bin/sh
# Runs the commands of README.md, of the pages of docs and of the tour's folder, each page in an empty folder, in order,
# and compares what each prints. At the top of the repository, once crates/ssbcube/out/ssbcube is built:
#
#     sh bench/pages.sh              all pages
#     sh bench/pages.sh PAGE..       some pages
#
# A command follows '$ ', and the lines after it are what it prints. Another program is taken from the folder SSBCUBE_AT.
set -u
cd "$(dirname "$0")/.." || exit 1
top=$PWD
tables=$top/crates/user_pages/data
PATH=${SSBCUBE_AT:-$top/crates/ssbcube/out}:$PATH
scratch=$(mktemp -d)
trap 'rm -r "$scratch"' EXIT
bad=0
if [ "$#" -eq 0 ]; then set -- README.md docs/*.md crates/user_pages/data/*.md; fi

for page in "$@"; do
    name=$(echo "$page" | tr / _)
    mkdir "$scratch/$name" "$scratch/$name/folder"
    awk -v folder="$scratch/$name" '
        /^```/ { inside = !inside; want = ""; next }
        inside && /^\$ / { command++; file = folder "/" command; print substr($0, 3) > (file ".sh")
            want = file ".want"; printf "" > want; next }
        inside && want { print > want }
    ' "$top/$page"
    cd "$scratch/$name/folder" || exit 1
    tried=0
    failed=0
    status=0
    case $page in docs/*) if [ ! -f "$scratch/$name/1.sh" ]; then continue; fi ;; esac
    while [ -f "$scratch/$name/$((tried + 1)).sh" ]; do
        tried=$((tried + 1))
        # What the command before ended with is $? of this one.
        (exit "$status")
        . "$scratch/$name/$tried.sh" > "$scratch/found" 2>&1
        status=$?
        if ! cmp -s "$scratch/found" "$scratch/$name/$tried.want"; then
            failed=$((failed + 1))
            echo "other than in $page: $(cat "$scratch/$name/$tried.sh")"
            diff "$scratch/found" "$scratch/$name/$tried.want"
        fi
    done
    echo "$page: $tried commands, $failed that print other than there"
    if [ "$failed" -ne 0 ] || [ "$tried" -eq 0 ]; then bad=1; fi
done
exit "$bad"
