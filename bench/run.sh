#!/bin/sh
# Times the proved plan printer beside the one in plain Rust (bench/printer.rs) on the same records,
# and compares what they print. Run it in the repository's root after `rt run </dev/null` in crates/plan_printer:
#
#   bench/run.sh [RECORDS [TURNS]]
#
# RECORDS is 1000000 and TURNS 5 where they are not given. The two take turns; the best of each counts.
set -eu
records=${1:-1000000}
turns=${2:-5}
scratch=target/bench
input=$scratch/records-$records
mkdir -p "$scratch"

rustc --edition 2021 -O -o "$scratch/plain" bench/printer.rs
[ -s "$input" ] || { python3 tests/records.py many "$records" > "$input.part" && mv "$input.part" "$input"; }

# nanoseconds of one run of $1 that writes to $2
once() {
    begun=$(date +%s%N)
    "$1" < "$input" > "$2"
    ended=$(date +%s%N)
    echo $((ended - begun))
}

least() { if [ "$1" -lt "$2" ]; then echo "$1"; else echo "$2"; fi; }

proved=999999999999
plain=999999999999
i=0
while [ "$i" -lt "$turns" ]; do
    proved=$(least "$proved" "$(once crates/plan_printer/out/plan_printer "$scratch/out-proved")")
    plain=$(least "$plain" "$(once "$scratch/plain" "$scratch/out-plain")")
    i=$((i + 1))
done

cmp "$scratch/out-proved" "$scratch/out-plain"
awk -v n="$records" -v a="$proved" -v b="$plain" 'BEGIN {
    printf "%d records, both print the same\n", n
    printf "Rattle      %10.0f records a second, %4.0f ns each\n", n / a * 1e9, a / n
    printf "plain Rust  %10.0f records a second, %4.0f ns each\n", n / b * 1e9, b / n
    printf "Rattle takes %.2f times as long\n", a / b
}'
rm -f "$scratch/out-proved" "$scratch/out-plain"
