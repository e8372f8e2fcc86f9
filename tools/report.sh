#!/bin/sh
# Proves and builds the report program where that is still to be done, then runs it: a job on standard input, its report
# on standard output.
#     tools/report.sh < examples/y2o3.job
set -eu
crate=$(cd "$(dirname "$0")/../crates/report" && pwd -P)

if [ ! -f "$crate/out/report" ]; then
    echo 'report.sh: proving the report program and what it stands on, which takes minutes the first time' >&2
fi
# `rt run` builds it; what it prints of an empty job is not wanted
said=$(cd "$crate" && rt run report 2>&1 </dev/null) || { printf '%s\n' "$said" >&2; exit 1; }
exec "$crate/out/report"
