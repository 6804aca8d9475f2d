#!/bin/sh
# Runs flatten on the tile files of samples/, by both of its cut makers, and compares what it prints with the texts beside them.
#
#     tools/check_samples.sh [PROGRAM]
#
# PROGRAM is crates/flatten/out/flatten if not given; `rt run` in crates/flatten builds it. The exit status is 1 where a text
# differs or a run fails.
set -u
cd "$(dirname "$0")/.." || exit 1
program=${1:-crates/flatten/out/flatten}
printed=$(mktemp) || exit 1
trap 'rm -f "$printed"' EXIT
trap 'exit 1' HUP INT TERM

if [ ! -x "$program" ]; then
    echo "there is no program $program: rt run in crates/flatten builds crates/flatten/out/flatten" >&2
    exit 1
fi

bad=0
for file in samples/*.tile; do
    text=${file%.tile}.txt
    records=1024
    case $file in
    */terrain.tile) records=4096 ;;
    esac
    for maker in push paths; do
        if "$program" --records "$records" --cut "$maker" <"$file" >"$printed" && cmp -s "$printed" "$text"; then
            echo "$file by $maker: as it has to be"
        else
            echo "$file by $maker: NOT as $text"
            bad=1
        fi
    done
done
exit "$bad"
