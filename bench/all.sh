#!/usr/bin/env bash
# Runs the benches one after the other, and writes bench/results.txt: the date, the machine and its load, and what each printed.
# Needs what they need (cargo, python3, taskset), and some minutes. The summary in docs/BENCHMARKS.md is written by hand.
set -euo pipefail
cd "$(dirname "${BASH_SOURCE[0]}")/.."
new=$(mktemp)
trap 'rm -f "$new"' EXIT

model=$(sed -n 's/^model name[[:space:]]*: //p' /proc/cpuinfo | head -n 1)
{
    echo "$(date -u +%F), $(nproc) processors (${model:-of no known model}), $(uname -sr)." \
        "Load when it began: $(cut -d ' ' -f 1 /proc/loadavg)."
    for bench in replay steps explore summary every pool library; do
        echo "bench/$bench.sh" >&2
        printf '\nbench/%s.sh\n\n' "$bench"
        "bench/$bench.sh"
    done
} > "$new"
cp "$new" bench/results.txt
