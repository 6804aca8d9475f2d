#!/bin/sh
# Prints which part of reading a terrain tile and doing its rounds by push-relabel is not in the cuts: the reader and the passes of each round, by a
# profiler (docs/SPEED.md).
#
#     bench/passes.sh [TIMES]
set -eu
cd "$(dirname "$0")/.."
. bench/build.sh

want /usr/bin/perf linux-perf
want /usr/bin/c++ g++
install_wanted
build_libraries
build loop bench/scenes.cpp bench/library.cpp bench/loop.cpp
for scene in 0 1 2 3 4 5 6 7 8; do
    name=$(perf record -q -e cpu-clock -o "$built/data" "$built/loop" "$scene" "${1:-200}")
    perf report -i "$built/data" --stdio --percent-limit 0 -F overhead,sym 2>/dev/null |
        awk -v name="$name" '
            $1 ~ /^[0-9.]+%$/ {
                part = $1 + 0
                all += part
                if (/run_cut|cut::/) cut += part
            }
            END { printf "%-24s %5.1f%%\n", name, 100 * (all - cut) / all }'
done
