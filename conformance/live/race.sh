#!/usr/bin/env bash
# Has a kernel of one's choice race, and compares what it did with the machine, row by row.
set -euo pipefail

usage="usage: race.sh VERSION [OPTION ..]

Fetches Debian's source of Linux VERSION (6.1, 6.12, 7.3, ..), puts log lines into its hugetlbfs, builds it, has tasks race on it
in an emulated machine, and compares each recording with the machine. At the end it prints one table, which is kept as results.txt: of
each workload how many recordings are whole, by the machine alone and with Linux's own rows (check.py --help lists these), and by what
the others leave the machine.

  --workloads N ..  the workloads to run, of workloads/ (plain trunc bug quota kills resizes denied pools)
  --share N         make one in N of each workload's recordings (1)
  --cpus N          processors of the emulated machine (4)
  --jobs N          processes that build and check (all processors)
  --program P       the program that replays the traces (crates/hugepool/out/hugepool, once ./hugepool build has made it); without it the
                    Python machine alone is asked, and the table says so
  --repair KIND     puts a repair of the reserve count into the kernel: 'accounting', or 'slots', which has that in it (kernel/repair.py)
  --only STEP       fetch, build, record or check alone
  --folder F        where source, kernel and recordings are kept (~/.cache/kirvessa/live-VERSION); a repaired kernel has a folder in it
A recording takes about a quarter of a second of an idle machine. What is there already is not made again. Nothing of the machine that it
runs on is changed, and nobody has to be root; missing packages are named.
Status: 0 all recordings are whole with Linux's own rows; 1 some aren't; 2 wrong words; 3 this kernel can't be instrumented or
built; 127 something is missing."

here=$(cd "$(dirname "$(readlink -f "${BASH_SOURCE[0]}")")" && pwd)
version='' cpus=4 jobs=$(nproc) program='' only='' folder='' share=1 repair=''
workloads=(plain trunc bug quota kills resizes denied pools)

say() { echo "race: $*" >&2; }

misuse() {
    say "$1"
    echo "$usage" >&2
    exit 2
}

read_words() {
    while [ $# -gt 0 ]; do
        case $1 in
        --workloads)
            workloads=()
            while [ $# -gt 1 ] && [[ $2 != -* ]]; do workloads+=("$2"); shift; done
            ;;
        --cpus) cpus=${2-}; shift ;;
        --share) share=${2-}; shift ;;
        --jobs) jobs=${2-}; shift ;;
        --program) program=${2-}; shift ;;
        --only) only=${2-}; shift ;;
        --repair) repair=${2-}; shift ;;
        --folder) folder=${2-}; shift ;;
        -h | --help) echo "$usage"; exit 0 ;;
        -*) misuse "there is no option $1" ;;
        *) version=$1 ;;
        esac
        shift
    done
    [[ $version =~ ^[0-9]+\.[0-9]+$ ]] || misuse "which version of Linux?"
    [[ $only =~ ^(fetch|build|record|check)?$ ]] || misuse "there is no step $only"
    # (a missing python3 is named below)
    if [[ -n $repair ]] && command -v python3 > /dev/null; then
        PYTHONPATH=$here/kernel python3 -c 'import repair, sys; sys.exit(sys.argv[1] not in repair.REPAIRS)' "$repair" ||
            misuse "there is no repair $repair"
    fi
    [[ $share =~ ^[1-9][0-9]*$ ]] || misuse "--share is a number from 1 on"
    [ ${#workloads[@]} -gt 0 ] || misuse "which workloads?"
    for it in "${workloads[@]}"; do [ -r "$here/workloads/$it.in" ] || misuse "there is no workload $it; those there are: $(cd "$here/workloads" && echo *.in)"; done
    folder=${folder:-${KIRVESSA_CACHE:-${XDG_CACHE_HOME:-$HOME/.cache}/kirvessa}/live-$version}
    out=$folder${repair:+/$repair}
    mkdir -p "$out"
}

need_all() {
    local pair missing=()
    for pair in cc:build-essential make:build-essential flex:flex bison:bison bc:bc cpio:cpio xz:xz-utils qemu-system-x86_64:qemu-system-x86 python3:python3; do
        command -v "${pair%%:*}" > /dev/null || missing+=("${pair#*:}")
    done
    [ -e /usr/include/libelf.h ] || missing+=(libelf-dev)
    [ ${#missing[@]} = 0 ] || { say "missing are Debian's packages ${missing[*]}: 'apt-get install ${missing[*]}'"; exit 127; }
}

fetch() {
    [ ! -d "$folder/linux-source-$version" ] || return 0
    say "fetching linux-source-$version"
    python3 "$here/../packages.py" "linux-source-$version" "$folder"
    dpkg-deb --fsys-tarfile "$folder/linux-source-${version}"_*.deb | tar -xO "./usr/src/linux-source-$version.tar.xz" | tar -xJ -C "$folder"
    rm "$folder/linux-source-${version}"_*.deb
}

build() {
    local tree=$folder/linux-source-$version
    local scripts=("$here/kernel/instrument.py" ${repair:+"$here/kernel/repair.py"})
    if [ -e "$out/bzImage" ] && [ -z "$(find "${scripts[@]}" -newer "$out/bzImage")" ]; then return 0; fi
    python3 "$here/kernel/instrument.py" "$tree" ${repair:+"$repair"} || exit 3
    say "building the kernel; what make prints is in $out/build.log"
    make -s -C "$tree" tinyconfig > "$out/build.log" 2>&1
    cat "$here/kernel/config.fragment" >> "$tree/.config"
    if ! { make -s -C "$tree" olddefconfig && make -s -C "$tree" -j"$jobs" bzImage; } >> "$out/build.log" 2>&1; then
        grep -m 5 -E 'error|Error' "$out/build.log" >&2 || tail -n 5 "$out/build.log" >&2
        say "the kernel can't be built"
        exit 3
    fi
    cp "$tree/arch/x86/boot/bzImage" "$out/bzImage"
}

record() {
    local it
    for it in "${workloads[@]}"; do
        [ ! -e "$out/$it.bin" ] || continue
        awk -v share="$share" '/^(rec|script) / { $4 = int(($4 + share - 1) / share) } { print }' "$here/workloads/$it.in" > "$out/$it.in"
        say "recording $it, $(awk '/^(rec|script) / { n += $4 } END { print n + 0 }' "$out/$it.in") times"
        "$here/boot.sh" --kernel "$out/bzImage" --cpus "$cpus" --seconds 36000 "$out/$it.in" "$out/part"
        mv "$out/part" "$out/$it.bin"
    done
}

check() {
    local recordings=("${workloads[@]/#/$out/}") words=(--jobs "$jobs" --kernel "Linux $(release)${repair:+, repaired ($repair)}" ${repair:+--repair "$repair"})
    recordings=("${recordings[@]/%/.bin}")
    if [ -n "$program" ]; then words+=(--program "$program"); fi
    python3 "$here/results.py" "${words[@]}" "${recordings[@]}" | tee "$out/results.txt"
}

# The release whose source was built.
release() {
    local tree=$folder/linux-source-$version key value
    for key in VERSION PATCHLEVEL SUBLEVEL; do
        value=$(sed -n "s/^$key = //p" "$tree/Makefile")
        printf '%s%s' "$([ $key = VERSION ] || echo .)" "$value"
    done
    sed -n 's/^EXTRAVERSION = //p' "$tree/Makefile" | tr -d '\n'
}

read_words "$@"
need_all
for step in fetch build record check; do
    if [ -z "$only" ] || [ "$only" = "$step" ]; then "$step"; fi
done
