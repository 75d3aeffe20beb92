#!/usr/bin/env bash
# Boots the instrumented kernel in an emulated machine, runs a workload there, and keeps the kernel's log.
set -euo pipefail

usage="usage: boot.sh [OPTION ..] WORKLOAD RECORDING

Runs the workload (guest/init.c says what its lines mean) and writes the kernel's log to RECORDING. What the guest printed
is in RECORDING.txt. check.py reads recordings.

  --kernel FILE   the instrumented kernel (bzImage), which race.sh builds
  --cpus N        that many processors (4)
  --seconds N     ends a machine that isn't done by then (3600)
Status: 0 all is recorded; 1 the machine failed, or its log was full; 2 wrong words; 127 something is missing."

here=$(cd "$(dirname "$(readlink -f "${BASH_SOURCE[0]}")")" && pwd)
kernel='' cpus=4 seconds=3600
words=()

say() { echo "boot: $*" >&2; }

misuse() {
    say "$1"
    echo "$usage" >&2
    exit 2
}

while [ $# -gt 0 ]; do
    case $1 in
    --kernel) kernel=${2-}; shift ;;
    --cpus) cpus=${2-}; shift ;;
    --seconds) seconds=${2-}; shift ;;
    -h | --help) echo "$usage"; exit 0 ;;
    -*) misuse "there is no option $1" ;;
    *) words+=("$1") ;;
    esac
    shift
done
[ ${#words[@]} = 2 ] || misuse "which workload, and which recording?"
[ -r "${words[0]}" ] || misuse "the workload ${words[0]} can't be read"
[ -r "$kernel" ] || misuse "--kernel names the instrumented kernel"
for pair in cc:build-essential qemu-system-x86_64:qemu-system-x86 cpio:cpio timeout:coreutils; do
    command -v "${pair%%:*}" > /dev/null || { say "missing is Debian's package ${pair#*:}"; exit 127; }
done

# (the guest's memory is a file, so that the log can be read out of it afterwards. On a host under load its timer may seem dead to its
# kernel, hence no_timer_check. Without erms the kernel doesn't clear pages by rep stosb, at which an emulated processor is slow)
work=$(mktemp -d "$([ -w /dev/shm ] && echo /dev/shm || echo "${TMPDIR:-/tmp}")/live-XXXXXX")
machine=''
clean() {
    [ -z "$machine" ] || kill "$machine" 2> /dev/null || true
    rm -rf "$work"
}
trap clean EXIT
trap 'exit 130' INT TERM HUP

mkdir -p "$work/root/dev"
"${CC:-cc}" -O1 -Wall -Wextra -static -o "$work/root/init" "$here/guest/init.c"
cp "${words[0]}" "$work/root/workload"
(cd "$work/root" && find . | cpio -o -H newc --quiet) > "$work/initramfs"
status=0
timeout "$seconds" qemu-system-x86_64 -accel tcg,thread=multi -cpu max,-erms -smp "$cpus" -m 1024M \
    -object memory-backend-file,id=ram,size=1024M,mem-path="$work/ram",share=on -machine pc,memory-backend=ram \
    -nodefaults -no-user-config -display none -no-reboot -kernel "$kernel" -initrd "$work/initramfs" \
    -append 'console=ttyS0 quiet loglevel=4 panic=-1 no_timer_check memmap=480M$512M hugepages=0' \
    -serial file:"${words[1]}.txt" < /dev/null >&2 &
machine=$!
wait "$machine" || status=$?
machine=''
# (a message of the kernel's or of the harness's is worth more than a recording)
if grep -aE 'HARNESS|BUG|WARNING|Oops|panic' "${words[1]}.txt" >&2; then say "the guest complained"; fi
if [ "$status" = 124 ]; then say "the machine wasn't done after $seconds seconds"; exit 1; fi
if ! grep -aqE '^done' "${words[1]}.txt"; then
    say "the machine ended before its workload did (status $status); its last lines:"
    tail -n 10 "${words[1]}.txt" >&2
    exit 1
fi
python3 "$here/take.py" "$work/ram" "${words[1]}"
