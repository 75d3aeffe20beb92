#!/usr/bin/env bash
# Explores many runs of a script in shards, and writes the lines that one exploration would write: a run knows only its own
# seed, so shards of seeds are exact, and their lines are joined in order. With --summary the tables of the shards are added up.
#
#   bench/explore-many.sh SCRIPT SEED RUNS SHARDS [WORD..]      (words as --deny 50 are passed on)
#   bench/explore-many.sh SCRIPT SEED RUNS SHARDS --summary [WORD..]
#
# Needs GNU parallel, and python3 for summaries. To spread the shards over hosts, set
# PARALLEL='--sshlogin one,two --workdir /where/this/lies'.
set -euo pipefail
if (($# < 4)); then
    sed -n '2,10s/^# \{0,1\}//p' "${BASH_SOURCE[0]}" >&2
    exit 2
fi
if ! command -v parallel > /dev/null; then
    echo "bench: 'parallel', GNU's, which runs the shards, is not on the PATH" >&2
    exit 127
fi
script=$(realpath "$1") seed=$2 runs=$3 shards=$4
shift 4
cd "$(dirname "${BASH_SOURCE[0]}")/.."
export HUGEPOOL=${HUGEPOOL:-proved}
./hugepool --help > /dev/null

# the seed and the runs of each shard, as many as one exploration has
parts() {
    for ((shard = 0; shard < shards; shard++)); do
        first=$((runs * shard / shards))
        last=$((runs * (shard + 1) / shards))
        ((first == last)) || echo "$((seed + first)) $((last - first))"
    done
}

# what all shards write with these words
explored() {
    parts | parallel --keep-order --colsep ' ' ./hugepool explore --seed {1} --runs {2} "$@" '<' "$script"
}

if [ "${1-}" != --summary ]; then
    explored "$@" | awk '{ $2 = NR - 1; print }'
    exit
fi
shift
# (the median is of all runs' turns, which a table doesn't have)
turns=$(mktemp)
trap 'rm -f "$turns"' EXIT
explored "$@" | awk '{ print $5 }' > "$turns"
explored --summary "$@" | python3 -B bench/summaries.py "$seed" "$turns"
