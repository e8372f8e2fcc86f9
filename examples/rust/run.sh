#!/bin/sh
# Builds the static library, and over it a Rust and a C program that print a job's report; holds both to the reports
# beside the jobs, then the safe Rust functions to small values of document 01. The last line is 'N passed, M failed'.
#     examples/rust/run.sh
# It needs `rt`, `rustc` and `cc` on an x86-64 machine. Nothing is fetched.
set -eu
here=$(cd "$(dirname "$0")" && pwd -P)
examples=$(dirname "$here")
repo=$(dirname "$examples")
library=$repo/crates/hoistgarlic/out
work=$(mktemp -d)
trap 'rm -rf "$work"' EXIT

(cd "$repo/crates/hoistgarlic" && rt lib hoistgarlic) >"$work/log" 2>&1 </dev/null || { cat "$work/log" >&2; exit 1; }

rust() { rustc --edition 2021 -O -D warnings --out-dir "$work" "$@"; }
rust --crate-type rlib -L native="$library" -l static=hoistgarlic "$here/hoistgarlic.rs"
rust --crate-name report -L "$work" --extern hoistgarlic "$here/main.rs"
rust -L "$work" --extern hoistgarlic "$here/calls.rs"
cc -std=c11 -O2 -Wall -Wextra -Werror -o "$work/report_c" "$examples/c/main.c" -L "$library" -lhoistgarlic -lm

"$work/calls" "$examples/worked.job" >"$work/said" || echo "FAILED calls ended" >>"$work/said"
echo 'refused 1' >"$work/refused"
for program in report report_c; do
    for job in "$examples"/*.job /dev/null; do
        out=${job%.job}.out
        [ "$job" != /dev/null ] || out=$work/refused
        if "$work/$program" <"$job" | cmp -s - "$out"; then word=ok; else word=FAILED; fi
        echo "$word $program $(basename "$job")" >>"$work/said"
    done
done
grep '^FAILED' "$work/said" || :
failed=$(grep -c '^FAILED' "$work/said" || :)
echo "$(grep -c '^ok' "$work/said" || :) passed, $failed failed"
[ "$failed" -eq 0 ]
