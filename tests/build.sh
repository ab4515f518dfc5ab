# Sourced by tests/run, tests/bench, scripts/list and scripts/archive, in the repository's root: builds what is missing.

library=target/staticlib/libdaemon.a
program=crates/listing/out/listing

# whether a file is missing or older than something in crates/, what rt makes there aside
stale() {
    [ ! -e "$1" ] || [ -n "$(find crates crates.txt -path 'crates/*/out' -prune -o \( -path 'crates/*/*' -o -path crates.txt \) -newer "$1" -print -quit)" ]
}

# in the crate's folder: proves what is not proved yet, and writes the archive or the program to out/
build_library() {
    stale "$library" || return 0
    (cd crates/daemon_c && rt lib) && mkdir -p target/staticlib && cp crates/daemon_c/out/libdaemon_c.a "$library"
}

build_program() {
    stale "$program" || return 0
    (cd crates/listing && rt run) && touch -c "$program"
}

# compiles the given C files with all that they share: target/tests/NAME for NAME.c
compile_tests() {
    local flags=(-std=c11 -Wall -Wextra -O2 -pthread -Iinclude -Itests/common) objects=() file object
    mkdir -p target/tests/objects || return
    for file in tests/common/*.c; do
        object=target/tests/objects/$(basename "$file" .c).o
        gcc "${flags[@]}" -c "$file" -o "$object" || return
        objects+=("$object")
    done
    for file in "$@"; do
        gcc "${flags[@]}" "$file" "${objects[@]}" "$library" -o "target/tests/$(basename "$file" .c)" || return
    done
}
