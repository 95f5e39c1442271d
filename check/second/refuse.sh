#!/bin/sh
# Refuses each allocation in turn: when scanning, detecting a geometry, reading a table and renaming a volume in it,
# attaching and reading, planning a rename, a change and edits of whole volumes, reading a config and the composer's
# text, building an image, and running the commands on bytes and by their words.
#
# usage: check/second/refuse.sh [CRATE TEST]
#
# Runs a test again and again: the first run has its first allocation refused, the second its second, and so on until a
# run meets no refusal. By default the tests are those of the list below, in the programs that `rt test` leaves in the
# crates' folders out/ (each is built first if it isn't there). Each run has to pass, and each run that meets a refusal
# has to print the line with which the test reports that memory ran out; the last one mustn't print it.
#
# It needs a C compiler (cc, or what CC names), for a few lines that wrap the C library's malloc and realloc.
set -u
root=$(CDPATH='' cd -- "$(dirname -- "$0")/../.." && pwd) || exit 1
room=$(mktemp -d) || exit 1
trap 'rm -rf "$room"' EXIT

${CC:-cc} -O1 -shared -fPIC -o "$room/refuse.so" "$root/check/second/refuse.c" -ldl || exit 1

# Refuses each allocation of a test in turn, and counts the runs that went wrong.
refuse_each() {
    crate=$root/crates/$1
    program=$crate/out/$1_tests
    [ -x "$program" ] || (cd "$crate" && mkdir -p out && rt test >out/tests.log 2>&1) || return 1
    at=1
    failed=0
    while :; do
        REFUSE_AT=$at LD_PRELOAD=$room/refuse.so "$program" "$2" >"$room/out" 2>"$room/err"
        status=$?
        answered=0
        grep -q 'out of memory' "$room/out" && answered=1
        grep -q 'refused an allocation' "$room/err" || break
        if [ $status != 0 ] || [ $answered = 0 ]; then
            echo "$1 $2, allocation $at: status $status, $(tail -n 1 "$room/out")"
            failed=$((failed + 1))
        fi
        at=$((at + 1))
    done
    if [ $status != 0 ] || [ $answered = 1 ]; then
        echo "$1 $2, with ample memory: status $status, $(tail -n 1 "$room/out")"
        failed=$((failed + 1))
    fi
    echo "$1 $2: $((at - 1)) allocations refused, $failed of the runs wrong"
    [ $failed = 0 ] && [ $at -gt 1 ]
}

if [ $# = 2 ]; then
    refuse_each "$1" "$2"
    exit
fi
wrong=0
refuse_each ubi_tests tests::scan::memory::finds_all_or_runs_out_of_memory || wrong=1
refuse_each ubi_tests tests::detect::detects_or_runs_out_of_memory || wrong=1
refuse_each ubi_tests tests::table::memory::reads_and_names_or_runs_out_of_memory || wrong=1
refuse_each ubi_tests tests::volume::memory::reads_all_or_runs_out_of_memory || wrong=1
refuse_each ubi_tests tests::change::memory::plans_all_or_runs_out_of_memory || wrong=1
refuse_each ubi_tests tests::change::update::memory::plans_edits_or_runs_out_of_memory || wrong=1
refuse_each ubi_tests tests::config::sections::gives_the_sections_or_runs_out_of_memory || wrong=1
refuse_each ubi_tests tests::compose::memory::reads_all_or_runs_out_of_memory || wrong=1
refuse_each ubi_tests tests::compose::memory::builds_all_or_runs_out_of_memory || wrong=1
refuse_each ubi_command_tests tests::memory::tells_all_or_runs_out_of_memory || wrong=1
refuse_each ubi_command_tests tests::memory::runs_words_or_out_of_memory || wrong=1
exit $wrong
