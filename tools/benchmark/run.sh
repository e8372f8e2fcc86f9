#!/bin/sh
# Nanoseconds of whole jobs, ours (bytes in, all lists out, over the static library) beside moyo's own functions on the
# same files, in one driver and one run:
#     tools/benchmark/run.sh ORACLE [JOB..]
# ORACLE is the folder that the oracle was built in (its `ws` holds moyo's sources over document 01's stand-in, compiled
# here as a user would, without instruments). JOBs are real designs; if none is named, those of examples/. Beside them
# run 200 generated designs, the dearest and the smallest legal jobs, a growth table and single matches. Nothing is
# fetched. LIBRARY, if set, is a folder with a libhoistgarlic.a to take in place of a new one; KEEP one that the driver
# and the jobs are copied to.
set -eu
here=$(cd "$(dirname "$0")" && pwd)
repo=$(cd "$here/../.." && pwd)
oracle=$(cd "$1" && pwd)
shift
if [ -z "${LIBRARY:-}" ]; then
    (cd "$repo/crates/hoistgarlic" && rt lib hoistgarlic)
    LIBRARY=$repo/crates/hoistgarlic/out
fi
work=$(mktemp -d)
trap 'rm -rf "$work"' EXIT

mkdir "$work/hosts"
[ $# -gt 0 ] || set -- "$repo"/examples/*.job
cp "$@" "$work/hosts"
"$oracle/oracle" dump 1 400 "$work/generated" --kind middle
"$here/dear_jobs.py" "$work"

# The driver stands in the oracle's project. moyo's functions are private to their module: a public one beside the
# harness carries a match out.
cp -R "$oracle/ws" "$work/ws"
sed -i 's/^mod symmetrize;/pub mod symmetrize;/' "$work/ws/moyo/src/lib.rs"
cat "$here/harness.rs" >> "$work/ws/moyo/src/symmetrize/standardize_harness.rs"
mkdir -p "$work/ws/benchmark/src"
cp "$here"/main.rs "$here"/ours.rs "$here"/clock.rs "$here"/matches.rs "$work/ws/benchmark/src"
cat > "$work/ws/benchmark/Cargo.toml" <<TOML
[package]
name = "benchmark"
version = "0.0.0"
edition = "2021"
[dependencies]
moyo = { path = "../moyo", features = ["untraced"] }
TOML
sed -i 's/members = \[/members = ["benchmark", /' "$work/ws/Cargo.toml"
cd "$work/ws"
RUSTFLAGS="-L $LIBRARY -l static=hoistgarlic" CARGO_NET_OFFLINE=true CARGO_TARGET_DIR="$work/target" \
    cargo build --profile plain --quiet -p benchmark
if [ -n "${KEEP:-}" ]; then
    (cd "$work" && cp -R target/plain/benchmark hosts generated small dear growth "$KEEP")
fi
"$work/target/plain/benchmark" "$work"
