# shellcheck shell=bash
# Sourced by the tests: the root of the repository, and what several of them need built.
cd "$(dirname "${BASH_SOURCE[0]}")/.." || exit 2

die() {
    echo "$0: $*" >&2
    exit 1
}

# The second program and its archive, under twin/target/release/.
build_twin() {
    cargo build --release --offline --locked --quiet --manifest-path twin/Cargo.toml || die "twin does not build"
}

# What make builds from the crates, anew where they have changed.
need_made() {
    mkdir -p build
    make "$1" >build/make.log 2>&1 || {
        tail -n 5 build/make.log >&2
        die "make $1 has failed"
    }
}

# The library's archive; FORKCANYON_LIB names another one to try.
library=${FORKCANYON_LIB:-build/$(uname -m)/libforkcanyon.a}
need_library() {
    [ -n "${FORKCANYON_LIB:-}" ] || need_made lib
    [ -f "$library" ] || die "there is no $library"
}

# build_harness OUT COMPILER_WORDS SOURCE...: a C program over tests/harness, the library and the second program.
build_harness() {
    local out=$1 words=$2
    shift 2
    mkdir -p "$(dirname "$out")"
    # shellcheck disable=SC2086
    gcc -std=c11 -D_GNU_SOURCE -g -Wall -Wextra -Werror -pedantic $words -Iinclude -Itests/harness \
        tests/harness/*.c "$@" "$library" twin/target/release/libtwin.a -lpthread -ldl -lm -o "$out" ||
        die "$out does not build"
}

# The tool, or its Debian package of the same name.
need_tool() {
    command -v "$1" >/dev/null && return
    { apt-get update -q && apt-get install -y -q "$1"; } >/dev/null 2>&1 ||
        die "there is no $1, and it could not be installed"
}

# python_tests FILE...: each of them has tests, and they pass.
python_tests() {
    local file
    mkdir -p build
    for file; do
        echo "-- $file"
        { python3 "$file" 2>&1 | tee build/python.log; } || die "$file has failed"
        grep -qE '^Ran [1-9][0-9]* test' build/python.log || die "$file has no test"
    done
}
