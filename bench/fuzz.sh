#!/usr/bin/env bash
# Gives traces that are made by chance, and damaged ones, to `./hugepool replay` and to a plain Rust program that replays traces
# with nothing proved; and compares what they write, what they complain of, and their statuses, for so many seconds. Whoever
# changes a row of the machine, or the text of a trace, runs it. Behind the number of a wrong line ours has to say in one more line
# what is wrong with it, and may name `hugepool format` behind that; the plain one doesn't, and what ours says there isn't judged.
#
#   bench/fuzz.sh SECONDS [SEED]
#
# Status 0: no difference was found; what was tried is told. Status 1: there is one, and a file is named with the smallest trace
# that was found to show it. The same seed gives the same traces; without one the clock gives it. Needs cargo.
set -euo pipefail
if (($# < 1 || $# > 2)) || [[ ! $1 =~ ^[1-9][0-9]{0,8}$ || ! ${2-1} =~ ^(0|[1-9][0-9]{0,17})$ ]]; then
    sed -n '2,10s/^# \{0,1\}//p' "${BASH_SOURCE[0]}" >&2
    exit 2
fi
cd "$(dirname "${BASH_SOURCE[0]}")/.."
if ! command -v cargo > /dev/null; then
    echo "bench: 'cargo', which builds the plain programs, is not on the PATH" >&2
    exit 127
fi
# (the proved program if it is current, else the one that is compiled without proof)
program=$(HUGEPOOL=path ./hugepool)
cargo build --quiet --release --manifest-path bench/plain/Cargo.toml
room=$(mktemp -d -t fuzz-XXXXXX)
plain=bench/plain/target/release
status=0
"$plain/fuzz" "$1" "${2-$(date +%s)}" "$room" "$program" replay -- "$plain/simulate" || status=$?
# (at a difference the folder stays, for the trace that it holds)
((status == 1)) || rm -r "$room"
exit "$status"
