#!/usr/bin/env bash
# The library from other languages: every name of its header, in C and in C++; and the examples. The calculators in C and Rust print the stored outputs of the tested
# runs, and nothing for empty input; the figures of the worked years are the stored ones, also from a journal's file, and so are their wall pages.
set -euo pipefail
cd "$(dirname "$0")/.."
library=crates/plt/out/libplt.a
mkdir -p target
strict="-Wall -Wextra -Werror -pedantic-errors -O2 -Iinclude"
for name in $(grep -oE '\bPLT_[A-Z_0-9]+\b' include/plt.h | sort -u); do
    [ "$name" = PLT_H ] || grep -qw "$name" tests/header.c || { echo "tests/header.c does not try $name" && exit 1; }
done
cc -std=c11 $strict tests/header.c "$library" -o target/header
target/header
c++ -std=c++11 $strict -x c++ tests/header.c -x none "$library" -o target/header
target/header

cc -std=c11 $strict examples/calculator.c "$library" -o target/calculator_c
rustc --edition 2024 -D warnings -O examples/calculator.rs -L crates/plt/out -l static=plt -o target/calculator_rust
for program in target/calculator_c target/calculator_rust; do
    for run in calculator run_years run_lines; do
        "$program" <"crates/$run/stdin" | cmp - "crates/$run/stdout"
    done
    "$program" </dev/null | cmp - /dev/null
done

cc -std=c11 $strict examples/figures.c "$library" -o target/figures
cat crates/calculator/stdin crates/run_years/stdin | target/figures --save target/figures.journal | cmp - tests/figures.txt
target/figures target/figures.journal | cmp - <(tail -n 9 tests/figures.txt | head -n 7; printf 'marks %s\n' "$(tail -n 1 tests/figures.txt | cut -c 4-)")
# What is no journal, by its length or its content, or is no file: a message, and status 1.
head -c 544 /dev/zero >target/zeros
for file in examples/year.txt target/zeros target/nowhere; do
    status=0
    target/figures "$file" 2>target/message || status=$?
    [ "$status" -eq 1 ]
    grep -q "^figures: $file " target/message
done
# Nothing to save; no room for the output; wrong arguments.
status=0
target/figures --save target/nothing </dev/null 2>target/message || status=$?
[ "$status" -eq 1 ]
grep -q '^figures: no setup' target/message
[ ! -e target/nothing ]
status=0
target/figures <crates/calculator/stdin >/dev/full 2>target/message || status=$?
[ "$status" -eq 1 ]
status=0
target/figures --all 2>target/message || status=$?
[ "$status" -eq 2 ]

cc -std=c11 $strict examples/report.c "$library" -o target/report
target/report <examples/wall_page.txt | cmp - examples/wall_page.page.txt
# The pages of all worked years, in the order of tests/years.sh; of each, the refused lines are told.
eval "$(sed -n '/^others=/,/"$/p' tests/years.sh)"
for year in year $others; do
    target/report <"examples/$year.txt" 2>target/message
    awk '/^NO/ { print "report: line " NR ": " $0 }' "examples/$year.replies.txt" | cmp - target/message >&2
done | cmp - tests/pages.txt
# The refused line of document 01's year. No setup; no room for the output.
target/report <examples/year.txt 2>target/message >target/page
[ "$(cat target/message)" = "report: line 7: NO 8" ]
status=0
target/report </dev/null >target/page 2>target/message || status=$?
[ "$status" -eq 1 ]
grep -q '^report: no setup' target/message
[ ! -s target/page ]
status=0
target/report <examples/wall_page.txt >/dev/full 2>target/message || status=$?
[ "$status" -eq 1 ]
grep -q '^report: the output cannot be written' target/message
echo "the examples print what is stored: in C and Rust the tested runs, in C the figures and the wall pages of the worked years"
