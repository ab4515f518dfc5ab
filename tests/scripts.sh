# Sourced by tests/run, in the repository's root: what scripts/ does and what README.md says.

document_listing='gateways 5 limit 2 covered 5
lead 0: 3 4
lead 2: 1
alone:
choke:'

script_lists() {
    [ "$(scripts/list "$@")" = "$document_listing" ]
}

script_lists_from_elsewhere() {
    local list=$PWD/scripts/list
    [ "$(cd data && "$list" sample.plt)" = "$document_listing" ]
}

script_lists_what_comes_in() {
    [ "$(scripts/list - <data/sample.plt)" = "$document_listing" ]
}

# A folder that looks like the repository before the first run, with an rt of ours, which is run in the crate's folder as rt is;
# it proves nothing and, unless it is to fail, puts the real program in place.
first_run_folder() {
    local name=$1 status=$2
    first=$folder/$name
    rm -rf "$first"
    mkdir -p "$first/tests" "$first/crates/listing" "$first/rt" || return
    cp -R scripts data "$first" && cp tests/build.sh "$first/tests" || return
    printf '%s\n' '# crates' 'low:' 'mid: low' 'other: low' 'listing: mid io libc' >"$first/crates.txt"
    printf '%s\n' '#!/bin/sh' 'touch ../../called' 'echo "fn low::f: proved"' \
        'echo "crate low: modules loaded=1 checked=1"' 'echo "logic=proved functions=1"' \
        'echo "fn mid::f: proved" >&2' 'echo "crate mid: modules loaded=2 checked=1"' 'echo "logic=proved functions=1"' \
        'echo "crate listing: modules loaded=3 checked=1"' \
        "[ $status -eq 0 ] || { echo 'logic=not-proved functions=1'; exit $status; }" \
        'echo "logic=proved functions=1"' 'echo "refused 9"' \
        "mkdir -p out && cp '$PWD/$program' out/listing" >"$first/rt/rt"
    chmod +x "$first/rt/rt"
}

# scripts/list there: standard output, standard error and status
first_list() {
    PATH=$first/rt:$PATH "$first/scripts/list" "$@" >"$first/printed" 2>"$first/said"
}

first_run_says='scripts/list: first run: proving and building the listing program, some minutes (log: target/list.log)
  crate 1 of at most 3 proved: low
  crate 2 of at most 3 proved: mid'

first_run_shows_progress() {
    first_run_folder first 0 && first_list || return
    [ "$(cat "$first/printed")" = "$document_listing" ] || return
    [ "$(cat "$first/said")" = "$first_run_says
  crate 3 of at most 3 proved: listing" ] || return
    [ "$(grep -c . "$first/target/list.log")" -eq 9 ] && grep -q '^fn mid::f' "$first/target/list.log"
}

later_run_prints_the_listing_alone() {
    rm -f "$first/called"
    first_list || return
    [ "$(cat "$first/printed")" = "$document_listing" ] && [ ! -s "$first/said" ] && [ ! -e "$first/called" ]
}

failed_first_run_names_the_log() {
    first_run_folder failing 1
    first_list && return 1
    [ ! -s "$first/printed" ] || return
    [ "$(head -n 3 "$first/said")" = "$first_run_says" ] && grep -q 'could not be built.*target/list\.log' "$first/said" &&
        [ "$(tail -n 1 "$first/said")" = 'logic=not-proved functions=1' ]
}

# the archive is named, and nothing else printed
script_names_the_archive() {
    [ "$(scripts/archive 2>/dev/null)" = "$library" ] && [ -s "$library" ]
}

failed_archive_says_so() {
    first_run_folder unproved 1 && mkdir "$first/crates/daemon_c" || return
    PATH=$first/rt:$PATH "$first/scripts/archive" >"$first/printed" 2>"$first/said" && return 1
    [ ! -s "$first/printed" ] && [ ! -e "$first/$library" ] && [ -e "$first/called" ] &&
        [ "$(tail -n 1 "$first/said")" = 'scripts/archive: the archive could not be built' ]
}

# arguments that are refused before anything is built: the status, what is said, the arguments
refused_at_once() {
    local status=$1 words=$2
    shift 2
    first_run_folder refusing 0 || return
    first_list "$@"
    [ $? -eq "$status" ] && [ "$(cat "$first/said")" = "$words" ] && [ ! -s "$first/printed" ] && [ ! -e "$first/called" ]
}

script_packs_the_sample() {
    scripts/pack data/sample.txt "$folder/sample.plt" && cmp "$folder/sample.plt" data/sample.plt
}

script_packs_own_limits() {
    scripts/pack data/sample2.txt "$folder/sample2.plt" && cmp "$folder/sample2.plt" data/sample2.plt
}

script_lists_own_limits() {
    [ "$(scripts/list data/sample2.plt)" = 'gateways 15 limit 3 covered 14
lead 0: 3 4
lead 1: 6 7 8 9 10
lead 2: 11 12 13 14
alone: 5
choke: 0' ]
}

script_packs_what_comes_in() {
    scripts/pack - - <data/sample.txt | cmp - data/sample.plt
}

# arguments with which nothing is packed, and the status
pack_refuses() {
    local status=$1
    shift
    scripts/pack "$@" >"$folder/packed" 2>"$folder/said"
    [ $? -eq "$status" ] && [ ! -s "$folder/packed" ] && [ -s "$folder/said" ]
}

pack_keeps_its_text() {
    cp data/sample.txt "$folder/own.txt" && pack_refuses 1 "$folder/own.txt" "$folder/own.txt" &&
        cmp "$folder/own.txt" data/sample.txt
}

# the large plant that test_pack left
packed_is_listed() {
    [[ "$(scripts/list "$folder/pack/plant.plt")" =~ ^gateways\ 1024\ limit\ 3\ covered\ [0-9]+$'\n'lead ]]
}

# the block of README.md in a section: its heading, the word after the fence, and which of these it is
readme_block() {
    awk -v heading="## $1" -v fence='```'"$2" -v which="$3" '
        /^## / { here = $0 == heading }
        inside && /^```/ { exit }
        inside
        here && $0 == fence && ++seen == which { inside = 1 }' README.md
}

# a section's program in C prints what the section says
readme_example() {
    readme_block "$1" c 1 >"$folder/example.c"
    readme_block "$1" text 1 >"$folder/example.txt"
    [ -s "$folder/example.txt" ] || return
    gcc -std=c11 -Wall -Wextra -Werror -Iinclude "$folder/example.c" "$library" -o "$folder/example" || return
    "$folder/example" | diff - "$folder/example.txt"
}

# a section's text gives its listing
readme_text() {
    readme_block "$1" text 1 >"$folder/readme.txt"
    readme_block "$1" text 2 >"$folder/readme.listing"
    [ -s "$folder/readme.listing" ] || return
    scripts/pack "$folder/readme.txt" - | scripts/list - | diff - "$folder/readme.listing"
}

# what README.md shows of crates/example stands in it, line by line in one piece, and so does what it prints
readme_rattle() {
    local code
    code=$(readme_block 'From Rattle' rust 1)
    [ -n "$code" ] && [[ "$(cat crates/example/src/main.rt)" == *"$code"* ]] || return
    readme_block 'From Rattle' text 1 | diff - crates/example/stdout
}

run_script_tests() {
    run_one 'scripts/list' script_lists
    run_one 'scripts/list with a file' script_lists data/sample.plt
    run_one 'scripts/list in another folder' script_lists_from_elsewhere
    run_one 'scripts/list with -' script_lists_what_comes_in
    run_one 'the first scripts/list' first_run_shows_progress
    run_one 'scripts/list after that' later_run_prints_the_listing_alone
    run_one 'a first scripts/list that fails' failed_first_run_names_the_log
    run_one 'scripts/list, no such file' refused_at_once 1 'scripts/list: none.plt: no such file' none.plt
    run_one 'scripts/list, no name' refused_at_once 1 'scripts/list: : no such file' ''
    run_one 'scripts/list, a folder' refused_at_once 1 'scripts/list: data: a folder, not a plant file' data
    run_one 'scripts/list, two files' refused_at_once 2 'usage: scripts/list [FILE]' data/sample.plt data/sample.plt
    run_one 'scripts/archive' script_names_the_archive
    run_one 'a scripts/archive that fails' failed_archive_says_so
    run_one 'scripts/pack with the sample' script_packs_the_sample
    run_one 'scripts/pack with own limits' script_packs_own_limits
    run_one 'scripts/list with own limits' script_lists_own_limits
    run_one 'scripts/pack with -' script_packs_what_comes_in
    run_one 'scripts/pack, no such file' pack_refuses 1 none.txt -
    run_one 'scripts/pack, no arguments' pack_refuses 2
    run_one 'scripts/pack, one argument' pack_refuses 2 data/sample.txt
    run_one 'scripts/pack, three arguments' pack_refuses 2 data/sample.txt - -
    run_one 'scripts/pack, no place to write' pack_refuses 1 data/sample.txt "$folder/none/plant.plt"
    run_one 'scripts/pack, onto its own text' pack_keeps_its_text
    run_one 'a packed plant listed' packed_is_listed
    run_one 'the C example of README.md' readme_example 'The call from C'
    run_one 'the C example of README.md, while it is being placed' readme_example 'While the plant is being placed'
    run_one 'the C example of README.md, why a gateway is alone' readme_example 'Why a gateway is alone'
    run_one 'the C example of README.md, lists by any hand' readme_example 'Lists by any hand'
    run_one 'the C example of README.md, by the short search' readme_example 'By the short search'
    run_one 'the text and the listing of README.md' readme_text 'From a text to a listing'
    run_one 'the text and the listing of README.md, with a limit of its own' readme_text 'A limit for each gateway'
    run_one 'the Rattle example of README.md' readme_rattle
}
