#!/usr/bin/env bash
# Replays events through libhugepool beside a plain Rust pool in the same process: calls of all
# operations by 8 and by 64 tasks, and loads and stores by as many. The library gets the events one by
# one, and in slices of 1,000. Prints nanoseconds for an event, without the reading, the best of
# several rounds in turn, and the ratio of both to the plain pool.
#
# `bench/library.sh [ROUNDS]` sets the number of rounds (30 by default). Needs cargo, cc, ar and the
# Rattle toolchain.
set -euo pipefail
source "$(dirname "${BASH_SOURCE[0]}")/needs.sh" cc ar
rounds=${1-30}
library/archive.py > /dev/null
room=$(mktemp -d -t bench-XXXXXX)
trap 'rm -r "$room"' EXIT
cp crates/hp_c/out/libhp_c.a "$room/libhugepool.a"
cc -O2 -fPIC -c -o "$room/heap.o" library/heap.c
ar rs "$room/libhugepool.a" "$room/heap.o" 2> /dev/null
cargo build --quiet --release --manifest-path bench/plain/Cargo.toml
HUGEPOOL_LIB_DIR=$room CARGO_TARGET_DIR=bench/plain/target cargo build --quiet --offline --release --manifest-path bench/library/Cargo.toml
traces=()
for kind in mixed touches; do
    for tasks in 8 64; do
        traces+=("$room/$kind-$tasks")
        bench/plain/target/release/generate "$kind" "$tasks" > "$room/$kind-$tasks"
    done
done
printf '%-16s %8s %8s %8s %8s %8s %8s\n' trace events one slices plain ratio ratio
bench/plain/target/release/bench-library "$rounds" "${traces[@]}"
