# Sourced by the scripts beside it: installs Debian's packages where they are wanted, and builds the libraries and programs.

# want FILE PACKAGE: the package, unless the file is there
want() {
    [ -e "$1" ] || packages="$packages $2"
}

install_wanted() {
    [ -n "$packages" ] || return 0
    root=
    [ "$(id -u)" -eq 0 ] || root=sudo
    $root apt-get update
    # shellcheck disable=SC2086
    $root apt-get install -y --no-install-recommends $packages
}

packages=
built=$(mktemp -d)
trap 'rm -rf "$built"' EXIT
trap 'exit 1' HUP INT TERM

# The libraries are proved before they are built: the one that hosts get, and that of single rounds and cuts.
build_libraries() {
    for crate in host bench_host; do
        (cd "crates/$crate" && rt lib) >"$built/said" 2>&1 || {
            tail -n 20 "$built/said" >&2
            exit 1
        }
    done
}

# build PROGRAM SOURCE..
build() {
    program=$1
    shift
    c++ -std=c++17 -O2 -DNDEBUG -Iinclude "$@" crates/host/out/libhost.a crates/bench_host/out/libbench_host.a -o "$built/$program"
}
