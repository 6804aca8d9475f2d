#!/bin/sh
# Installs what the measurement needs, builds it and prints the table (docs/SPEED.md).
#
#     bench/run.sh [REPEATS]
#
# The exit status is 1 where an energy, a bracket or a mark does not agree, and not 0 where something does not build.
set -eu
cd "$(dirname "$0")/.."
. bench/build.sh

want /usr/include/boost/graph/boykov_kolmogorov_max_flow.hpp libboost-graph-dev
want /usr/bin/c++ g++
install_wanted
build_libraries
build bench bench/scenes.cpp bench/peer.cpp bench/library.cpp bench/bench.cpp
"$built/bench" "$@"
