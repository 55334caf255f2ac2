#!/usr/bin/env bash
# Each worked year of examples/ is part of a tested run, with its replies beside it: document 01's year is the run of the calculator, the others are that of
# run_years, one after another in this order (a setup starts a year anew, whatever was there before). Beside wall_page there is its wall page too.
set -euo pipefail
cd "$(dirname "$0")/.."
others="undecided_mark sample_size amendment failed declared first_engine previous_limit equal_limit rounding struck_engine asked_engine
    failing_engines wall_page"

# The tested run $1 is made of the worked years $2...
is_run() {
    local run=$1
    shift
    cat "${@/%/.txt}" | cmp - "../crates/$run/stdin"
    cat "${@/%/.replies.txt}" | cmp - "../crates/$run/stdout"
}

cd examples
is_run calculator year
is_run run_years $others
# There is no other example.
diff <(ls ./*.txt) <({ for year in year $others; do printf './%s\n' "$year.txt" "$year.replies.txt"; done && echo ./wall_page.page.txt; } | sort)
# README has the wall page, without the spaces at the ends of its lines; and every line of these four years, with its reply.
diff <(sed -n '/^```page$/,/^```$/{/^```/!p}' README.md) <(sed 's/ *$//' wall_page.page.txt)
quoted() { sed 's/.*/`&`/' "$@"; }
explained="struck_engine asked_engine failing_engines wall_page"
keyed_and_replied() { paste -d ' ' <(quoted "${@/%/.txt}") <(quoted "${@/%/.replies.txt}"); }
diff <(sed -nE 's/^\| (`[^`]+`) \| (`[^`]+`) \|.*/\1 \2/p' README.md) <(keyed_and_replied $explained)
