#!/usr/bin/env bash
# build.sh [FOLDER]: compiles the recorder, and the first process of an emulated machine, into the folder (out/ beside this).
# PAGE_KIB is the size of the huge pages that the recorder uses (2048).
set -euo pipefail
here=$(cd "${BASH_SOURCE[0]%/*}" && pwd)
folder=${1:-$here/out}
compiler=${CC:-cc}
if ! command -v "$compiler" > /dev/null; then
    echo "record: '$compiler', a C compiler, is not on the PATH (Debian's package build-essential has one)" >&2
    exit 127
fi
flags=(-std=gnu11 -D_GNU_SOURCE "-DHUGE_PAGE_KIB=${PAGE_KIB:-2048}" -O2 -Wall -Wextra -Wshadow -Wstrict-prototypes -Wmissing-prototypes -static)
mkdir -p "$folder"
cd "$here"
"$compiler" "${flags[@]}" -o "$folder/record" record.c run.c script.c kernel.c task.c calls.c race.c hold.c deny.c serve.c pause.c fail.c
"$compiler" "${flags[@]}" -o "$folder/init" init.c
