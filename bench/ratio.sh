#!/bin/sh
# Compares the built program with the plain Rust program of bench/plain/, on generated documents and on examples/: both must
# give the same text and status, and for each document their least times of five runs, the ratio and the most memory are told.
#
#     bench/ratio.sh [PROGRAM]    PROGRAM in place of the one that ./hem builds
#
# It needs rustc and python3.
cd "$(dirname -- "$0")/.." || exit 1
program=${1:-./crates/hem/out/hem}
[ $# -gt 0 ] || ./hem >/dev/null 2>&1 </dev/null
folder=$(mktemp -d) || exit 1
trap 'rm -r "$folder"' EXIT
. bench/plain/build.sh
build_plain "$folder" || exit 1
python3 bench/ratio.py same "$program" "$folder/plain" examples/*.hem || exit 1
measure() {
    python3 bench/make.py "$@" >"$folder/document" || exit 1
    printf '%s: ' "$*"
    python3 bench/ratio.py measure "$program" "$folder/plain" "$folder/document" || exit 1
}
# The words of the program are the first, and those of bench/make.py follow.
measure_by() {
    words=$1
    shift
    python3 bench/make.py "$@" >"$folder/document" || exit 1
    printf '%s, %s: ' "$words" "$*"
    # The job and its options are words of their own.
    # shellcheck disable=SC2086
    python3 bench/ratio.py measure "$program" "$folder/plain" "$folder/document" $words || exit 1
}
for size in 10000 100000; do measure one-step "$size"; done
for size in 100000 1000000; do measure rounds "$size"; done
for size in 100000 1000000; do measure stores "$size"; done
for size in 10000 100000; do measure entries "$size"; done
measure protocol
for size in 3300000 33000000; do measure comments "$size"; done
measure signs 33554432
measure alone 1000000
for count in 10000 100000; do measure_by "walk --count $count --seed 7" load; done
# One request is generated, so that the summary alone is printed.
for size in 9999 99999; do measure_by 'walk --count 1' misses "$size"; done
for size in 9999 99999; do measure_by 'walk --count 1' idle "$size"; done
for size in 10000 100000; do measure_by walk misses "$size"; done
# A run by workers, against the plain program's one thread.
for count in 10000 100000; do measure_by "run --count $count --seed 7" load; done
for size in 9999 99999; do measure_by 'run --count 1' misses "$size"; done
for size in 9999 99999; do measure_by 'run --count 1' idle "$size"; done
for count in 10000 100000; do measure_by "make --count $count" load; done
for name in msi_inclusive mesi_inclusive msi_noninclusive mesi_noninclusive; do measure_by emit tree "$name"; done
measure_by emit widest
for count in 10000 100000; do measure_by play hits "$count"; done
for count in 3400 34000; do measure_by play trips "$count"; done
for size in 3000000 30000000; do measure_by play again "$size"; done
