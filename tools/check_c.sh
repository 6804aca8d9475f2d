#!/bin/sh
# Builds the library for C, and the programs of samples/c over it; runs them, and compares what they print with what they have to.
#
#     tools/check_c.sh
#
# CC and CXX are the compilers, cc and c++ if not set. The library is built by LLVM and by Rattle's own compiler, and the programs are run
# over both; once more with the sanitizers for addresses and undefined behaviour, where the compiler has them, which look at the code in
# C and at what it lends. crates/host/out/libhost.a is LLVM's in the end. The exit status is 1 where something is not as it has to be.
set -u
cd "$(dirname "$0")/.." || exit 1
cc=${CC:-cc}
cxx=${CXX:-c++}
strict="-Wall -Wextra -Wpedantic -Werror -Iinclude"
library=crates/host/out/libhost.a
made=$(mktemp -d) || exit 1
trap 'rm -rf "$made"' EXIT
trap 'exit 1' HUP INT TERM
bad=0

# Says what came of a check: its name, and its status.
say() {
    if [ "$2" -eq 0 ]; then
        echo "$1: as it has to be"
    else
        echo "$1: NOT as it has to be"
        bad=1
    fi
}

# Runs a program on a file and compares what it prints: what is checked, the file, the text, and the program with its arguments.
compare() {
    name=$1
    input=$2
    text=$3
    shift 3
    "$@" <"$input" >"$made/printed" && cmp -s "$made/printed" "$text"
    say "$name" $?
}

# Runs a program and compares its exit status: what is checked, the status, and the program with its arguments.
ends_with() {
    name=$1
    wanted=$2
    shift 2
    "$@" >"$made/printed" 2>"$made/said"
    [ $? -eq "$wanted" ] || {
        cat "$made/printed" "$made/said"
        false
    }
    say "$name" $?
}

# Builds the library, with some more flags.
build() {
    # shellcheck disable=SC2086 # flags, parted by spaces
    (cd crates/host && rt lib $1) >"$made/built" 2>&1 || {
        cat "$made/built"
        exit 1
    }
}

# Builds the programs with some more flags, and runs them.
run_all() {
    for program in solve_file shape records; do
        # shellcheck disable=SC2086 # flags, parted by spaces
        "$cc" -std=c11 $strict $1 "samples/c/$program.c" "$library" -o "$made/$program" || return 1
    done
    for file in samples/*.tile; do
        for maker in push paths; do
            compare "$file by $maker$2" "$file" "${file%.tile}.txt" "$made/solve_file" --records 4096 --cut "$maker"
        done
    done
    printf '\000\001\130' >"$made/letter.tile"
    echo "refused 13 1 2 0" >"$made/letter.txt"
    compare "a file of another letter$2" "$made/letter.tile" "$made/letter.txt" "$made/solve_file"
    ends_with "an argument that is no number of records$2" 2 "$made/solve_file" --records 40x </dev/null
    ends_with "an unknown cut maker$2" 2 "$made/solve_file" --cut knife </dev/null
    ends_with "a folder in place of a file$2" 1 "$made/solve_file" </
    ends_with "input without end$2" 0 "$made/solve_file" </dev/zero
    echo "1 x 2 cells, the highest in row 0 and column 1: 7 of 10" >"$made/shape.txt"
    compare "memory for just one tile$2" samples/two_cells.tile "$made/shape.txt" "$made/shape"
    ends_with "memory for no tile$2" 3 "$made/shape" <"$made/letter.tile"
    # The heights that are wanted, from the independent script.
    "$made/records" --file >"$made/records.tile"
    wanted=$(tools/reference_flatten.py <"$made/records.tile" | tail -n +2)
    # shellcheck disable=SC2086 # heights, parted by spaces
    ends_with "every field of every record$2" 0 "$made/records" $wanted
    tools/fuzz_flatten.py "$made/solve_file" --files 500 >"$made/fuzzed"
    say "500 files, good and bad$2" $?
}

build "--backend rattle"
run_all "-O2" ", over Rattle's own compiler"
say "programs in C, over Rattle's own compiler" $?

build ""
run_all "-O2" ""
say "programs in C" $?

# Each name of the header is in the library, and the library exports no other.
grep -oE '\byolanthuk_[a-z_]+\(' include/yolanthuk.h | tr -d '(' | sort -u >"$made/declared"
nm "$library" | awk '$2 == "T" { print $3 }' | sort -u >"$made/exported"
cmp -s "$made/declared" "$made/exported" || diff "$made/declared" "$made/exported"
say "the names of the header are those of the library" $?

# The header in C++.
cat >"$made/header.cc" <<'EOF'
#include "yolanthuk.h"
#include "yolanthuk.h"
int main() {
    yolanthuk_shape shape = {};
    yolanthuk_fault fault = {};
    return yolanthuk_file_shape(nullptr, 0, &shape, &fault) == YOLANTHUK_TRUNCATED ? 0 : 1;
}
EOF
# shellcheck disable=SC2086
"$cxx" -std=c++11 $strict "$made/header.cc" "$library" -o "$made/header" && "$made/header"
say "the header in C++" $?

# What the library wants of the C library.
nm -u "$library" | awk 'NF == 2 && $1 == "U" { print $2 }' | sort -u >"$made/wanted"
echo memset | cmp -s - "$made/wanted"
say "the library needs memset alone" $?

sanitize="-O1 -g -fsanitize=address,undefined -fno-sanitize-recover=all"
echo 'int main(void) { return 0; }' >"$made/empty.c"
# shellcheck disable=SC2086
if "$cc" $sanitize "$made/empty.c" -o "$made/empty" 2>/dev/null; then
    run_all "$sanitize" ", with sanitizers"
    say "programs in C, with sanitizers" $?
else
    echo "$cc has no sanitizers here: not tried"
fi
exit "$bad"
