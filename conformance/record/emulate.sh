#!/usr/bin/env bash
# Records what a Linux kernel answers to the calls of scripts, in an emulated machine with Debian's kernel.
set -euo pipefail

usage="usage: emulate.sh [OPTION ..] SCRIPTS ..
       emulate.sh [OPTION ..] --run PROGRAM [WORDS ..]
       emulate.sh [OPTION ..] --stay

Builds the recorder, runs it on the scripts in an emulated machine, and writes what its kernel answered to standard
output. The kernel of the machine that it runs on is left alone, and nobody has to be root.

  --again       records the calls of recorded files again, each on a machine of its own, and compares:
                the last line is 'N passed, M failed', of files
  --run PROGRAM runs this statically linked program there, as root, instead of the recorder, and ends with its status;
                it has to write a line that begins with 'reproducer: ' to standard error before it does anything
  --stay        boots a machine whose recorder takes scripts by a serial line, a socket in TMPDIR/emulate-*/asked, up to a line 'go',
                again and again; what it answers is in recorded beside it, and ends with 'served STATUS'. Its monitor is a socket
                there, too, and it can keep its state ('savevm'). It stays until this program is ended
  --install     installs the packages that are missing (as root, or by sudo) and fetches the kernel's, which is
                unpacked into a folder of its own and not installed
  --kernel FILE emulates with this kernel (vmlinuz)
  --package P   fetches this package of Debian's for --install, and emulates with its kernel
                (linux-image-cloud-amd64, or what that stands for, unless told otherwise)
  --append WORDS  more words for the kernel's command line
  --leave       leaves its files in TMPDIR/emulate-*: the machine's console, and those of the machines before in 'consoles'
  --pause       stops the machine behind each race, until somebody has it go on by the monitor, a socket in TMPDIR/emulate-*/monitor
  --cpus N      that many processors (2)
  --memory MIB  that much memory (768)
  --page KIB    huge pages of that size (2048)
  --seconds N   ends a machine that isn't done by then (900)
  --boot-seconds N  ends a machine on which the recorder hasn't begun by then (120)
  --accel NAME  kvm or tcg (kvm where /dev/kvm may be used and this machine isn't a virtual one)

The machine is of x86-64, or of arm64 if the kernel's image is (then with the packages qemu-system-arm, gcc-aarch64-linux-gnu and
libc6-dev-arm64-cross).

A kernel that panics or hangs before the recorder begins is booted again, three times in all. A script that leaves the
kernel's own reserve count wrong is the last one of its machine: another one is booted for the rest. KIRVESSA_CACHE is where kernels are kept (~/.cache/kirvessa).
Status: 0 all is recorded; 1 something failed, or differs; 2 a wrong word or script; 127 something is missing."

here=$(cd "$(dirname "$(readlink -f "${BASH_SOURCE[0]}")")" && pwd)
cache=${KIRVESSA_CACHE:-${XDG_CACHE_HOME:-$HOME/.cache}/kirvessa}
package=linux-image-cloud-amd64
kernel='' cpus=2 memory=768 seconds=900 boot_seconds=120 page=2048 accel='' is_again='' is_install='' is_pausing='' is_leaving='' is_staying='' append='' program=''
files=()

say() { echo "emulate: $*" >&2; }

misuse() {
    say "$1"
    echo "$usage" >&2
    exit 2
}

number() { [[ $2 =~ ^[1-9][0-9]*$ ]] || misuse "$1 wants a number, not '$2'"; }

read_words() {
    while [ $# -gt 0 ]; do
        case $1 in
        --kernel | --package | --cpus | --memory | --page | --seconds | --boot-seconds | --accel | --append | --run) [ $# -gt 1 ] || misuse "$1 wants a word behind it" ;;&
        --cpus | --memory | --page | --seconds | --boot-seconds) number "$1" "$2" ;;&
        --again) is_again=1 ;;
        --install) is_install=1 ;;
        --pause) is_pausing=1 ;;
        --leave) is_leaving=1 ;;
        --stay) is_staying=1 ;;
        --append) append=$2; shift ;;
        --kernel) kernel=$2; shift ;;
        --package) package=$2; shift ;;
        --cpus) cpus=$2; shift ;;
        --memory) memory=$2; shift ;;
        --page) page=$2; shift ;;
        --seconds) seconds=$2; shift ;;
        --boot-seconds) boot_seconds=$2; shift ;;
        --accel) accel=$2; shift ;;
        --run) program=$2; shift ;;
        -h | --help) echo "$usage"; exit 0 ;;
        -*) misuse "there is no option $1" ;;
        *) files+=("$1") ;;
        esac
        shift
    done
}

# The processor that a kernel's image is for.
arch_of() { if [ -f "$1" ] && [ "$(head -c 60 "$1" | tail -c 4 | tr -d '\0')" = ARMd ]; then echo aarch64; else echo x86_64; fi; }

# the packages that have what isn't on the PATH
missing_packages() {
    local pair emulating=(qemu-system-x86_64:qemu-system-x86)
    [ "$(arch_of "$kernel")" = x86_64 ] || emulating=(qemu-system-aarch64:qemu-system-arm aarch64-linux-gnu-gcc:gcc-aarch64-linux-gnu)
    for pair in cc:build-essential "${emulating[@]}" ${is_staying:+qemu-img:qemu-utils} cpio:cpio timeout:coreutils setpriv:util-linux python3:python3; do
        command -v "${pair%%:*}" > /dev/null || echo "${pair#*:}"
    done
}

# The kernel of the package in the cache, if it is there (packages.py names the folder so).
kept_kernel() {
    local folder=$cache/${package//[\/=]/@}
    if [ -d "$folder" ]; then find "$folder" -name 'vmlinuz-*' | sort -V | tail -n 1; fi
}

# Fetches the kernel's package and keeps its kernel alone.
fetch_kernel() {
    say "fetching the kernel of $package"
    kernel=$(python3 "$here/../packages.py" --kernel "$package" "$cache")
}

install_all() {
    local packages by=()
    local installed=nothing
    mapfile -t packages < <(missing_packages)
    if [ ${#packages[@]} -gt 0 ]; then
        [ "$(id -u)" = 0 ] || by=(sudo)
        say "installing ${packages[*]}"
        "${by[@]}" apt-get install -y --no-install-recommends "${packages[@]}" >&2
        installed=${packages[*]}
    fi
    [ -n "$kernel" ] || kernel=$(kept_kernel)
    [ -n "$kernel" ] || fetch_kernel
    say "installed $installed; the kernel is $kernel"
}

need_all() {
    local packages
    [ -n "$kernel" ] || kernel=$(kept_kernel)
    mapfile -t packages < <(missing_packages)
    if [ ${#packages[@]} -gt 0 ]; then
        say "missing are Debian's packages ${packages[*]}: 'apt-get install ${packages[*]}', or emulate.sh --install"
        exit 127
    fi
    if [ -z "$kernel" ]; then
        say "there is no kernel of the package $package in $cache: emulate.sh --install fetches it, or --kernel names one"
        exit 127
    fi
    if [ ! -r "$kernel" ]; then
        say "the kernel $kernel can't be read"
        exit 1
    fi
}

# (in a machine that is emulated itself KVM may be there and still fail in the middle)
choose_accel() {
    [ -z "$accel" ] || return 0
    accel=tcg
    [ "$(arch_of "$kernel")" = x86_64 ] || return 0
    if [ -r /dev/kvm ] && [ -w /dev/kvm ] && ! grep -qw hypervisor /proc/cpuinfo; then accel=kvm; fi
}

# Packs what the machine begins with: its first process, the program that this one runs under the recorder's name, and the scripts.
pack() {
    local root=$work/root program=$1
    shift
    rm -rf "$root" &&
        mkdir -p "$root"/{dev,proc,sys,tmp} &&
        cp "$work/built/init" "$root/" &&
        cp "$program" "$root/record" &&
        awk 1 "$@" /dev/null > "$root/scripts" &&     # (a last line without its end gets one)
        (cd "$root" && find . | cpio -o -H newc --quiet) > "$work/initramfs"
}

# Whether the recorder runs, or has run, so that calls were made.
has_begun() { grep -q '^record: \|^reproducer: ' "$work/told"; }

# Whether the kernel stopped or hung before it ran the recorder.
is_unbegun() { [ "$ended" = 0 ] || [ "$ended" = hung ] && ! has_begun; }

# Boots a machine in which the recorder runs with these words. A kernel that stops or hangs before it runs the recorder is booted again,
# twice at most: emulated, one now and then stops or hangs for a fault of the emulator. Behind the first call nothing is tried again.
boot() {
    local attempt
    for attempt in 1 2; do
        if boot_once "$@"; then return 0; fi
        is_unbegun || return 1
        say "the kernel $([ "$ended" = 0 ] && echo stopped || echo hung) before it ran the recorder: booting it again, attempt $((attempt + 1)) of 3"
    done
    boot_once "$@"
}

# Waits until the machine has ended. One on which the recorder doesn't begin in time is ended.
await_machine() {
    local last=$((SECONDS + (boot_seconds < seconds ? boot_seconds : seconds)))
    ended=0
    while kill -0 "$machine" 2> /dev/null && ! has_begun; do
        if [ "$SECONDS" -ge "$last" ]; then
            kill "$machine"
            ended=hung
            break
        fi
        sleep 0.2
    done
    if [ "$ended" = hung ]; then
        wait "$machine" || true
    else
        wait "$machine" || ended=$?
    fi
    machine=''
}

# (Whatever ends this program, the machine ends with it, by setpriv. Where rep stosb is announced as fast (erms), the kernel clears pages with it, and an emulated processor is slow at that: without it a
# race takes a third of the time. Emulated by QEMU 7.2, cmpxchg16b now and then leaves garbage in the flags, at which 6.12 stops in
# __kmalloc: without it (cx16) the kernel has another way. The console has warnings, too, a kernel that oopses stops, and a task that hangs for a minute is
# reported; a kernel without these numbers says so, and goes on.) What is recorded is in $work/recorded then, what the recorder told in $work/told, what the kernel told in $work/console.
boot_once() {
    local stopping=() staying=() console="ttyS0 no_timer_check" machine_words=() lines=() asked=null
    if [ "$(arch_of "$kernel")" = x86_64 ]; then
        machine_words=(qemu-system-x86_64 -machine pc -cpu max,-erms,-cx16)
        lines=(-serial file:"$work/recorded" -serial file:"$work/told" ${is_staying:+-serial "unix:$work/asked,server=on,wait=off"})
    else
        # (its own line is ttyAMA0; those of the card are ttyS0 to ttyS3)
        [ -z "$is_staying" ] || asked="socket,path=$work/asked,server=on,wait=off"
        console=ttyAMA0 machine_words=(qemu-system-aarch64 -machine virt -cpu cortex-a72)
        lines=(-chardev null,id=none -chardev "file,id=recorded,path=$work/recorded" -chardev "file,id=told,path=$work/told"
            -chardev "$asked,id=asked" -device pci-serial-4x,chardev1=none,chardev2=recorded,chardev3=told,chardev4=asked)
    fi
    [ -z "$is_pausing" ] || stopping=(-device pvpanic -action panic=pause -qmp "unix:$work/monitor,server=on,wait=off")
    [ -z "$is_staying" ] || staying=(-drive "if=none,format=qcow2,file=$work/state" -qmp "unix:$work/monitor,server=on,wait=off")
    [ -z "$is_leaving" ] || cat "$work/console" >> "$work/consoles" 2> /dev/null || true
    rm -f "$work"/{recorded,told,console,monitor}
    touch "$work"/{recorded,told,console}
    setpriv --pdeathsig TERM timeout "$seconds" "${machine_words[@]}" -accel "$accel" -m "$memory" -smp "$cpus" -nodefaults -no-user-config \
        -display none -no-reboot -kernel "$kernel" -initrd "$work/initramfs" "${stopping[@]}" "${staying[@]}" \
        -append "console=$console loglevel=5 oops=panic sysctl.kernel.hung_task_timeout_secs=60 panic=-1 $append -- $*" \
        -serial file:"$work/console" "${lines[@]}" < /dev/null >&2 &
    machine=$!
    await_machine
    grep -v '^status ' "$work/told" >&2 || true
    if [ "$ended" = hung ]; then
        say "the recorder hadn't begun after $((boot_seconds < seconds ? boot_seconds : seconds)) seconds; its console's last lines:"
        tail -n 20 "$work/console" >&2
        return 1
    elif [ "$ended" = 124 ]; then
        say "the machine wasn't done after $seconds seconds"
        return 1
    elif [ "$ended" != 0 ] || ! grep -qx 'status [0-9]*' "$work/told"; then
        say "the machine ended before the recorder did (status $ended); its console's last lines:"
        tail -n 20 "$work/console" >&2
        return 1
    fi
}

# Whether all lines came through that the recorder wrote.
is_whole() {
    local wrote came
    wrote=$(sed -n 's/^record: .* scripts recorded, \([0-9]*\) lines$/\1/p' "$work/told")
    came=$(wc -l < "$work/recorded")
    [ "$wrote" = "$came" ] || say "the recorder wrote ${wrote:-no} lines, and $came came"
    [ "$wrote" = "$came" ]
}

# Records the scripts of files into the first one named, on as many machines as that takes.
record() {
    local to=$1 from=0 status
    shift
    pack "$work/built/record" "$@" && : > "$to" || return 1
    while true; do
        boot --race ${is_pausing:+--pause} --from "$from" /scripts || return 1
        status=$(sed -n 's/^status //p' "$work/told")
        case $status in
        0 | 3) is_whole || return 1 ;;
        *) return "$status" ;;
        esac
        # (each machine tells its kernel, which is the same)
        tail -n "+$((from > 0 ? 2 : 1))" "$work/recorded" >> "$to"
        [ "$status" = 3 ] || return 0
        from=$((from + $(grep -c '^end ' "$work/recorded")))
        say "booting another machine for the rest, from script $((from + 1)) on"
    done
}

# What of a recorded file the scripts and the kernel's answers are.
answers_of() { grep -v '^#' "$1"; }

# Records each file again, and compares.
compare() {
    local file passed=0 failed=0
    for file in "${files[@]}"; do
        if ! record "$work/again" "$file"; then
            failed=$((failed + 1))
        elif diff <(answers_of "$file") <(answers_of "$work/again") > "$work/difference"; then
            passed=$((passed + 1))
            echo "$file: all $(answers_of "$file" | wc -l) lines are equal; $(sed -n '1s/^# //p' "$work/again")"
        else
            failed=$((failed + 1))
            echo "$file: $(grep -c '^>' "$work/difference") lines differ; $(sed -n '1s/^# //p' "$work/again")"
            python3 "$here/changed.py" "$file" "$work/again"
        fi
    done
    echo "recorded again: $passed passed, $failed failed"
    [ "$failed" = 0 ]
}

# Runs the program with these words, writes what it wrote, and ends with its status.
run_program() {
    pack "$program" && boot "$@" || return 1
    cat "$work/recorded"
    return "$(sed -n 's/^status //p' "$work/told")"
}

# Boots a machine that stays until this program is ended.
stay() {
    pack "$work/built/record" && qemu-img create -q -f qcow2 "$work/state" 1M && boot --serve /dev/ttyS3
}

check_words() {
    [ ${#files[@]} -gt 0 ] || { [ -n "$is_install" ] && exit 0; } || misuse "which scripts?"
    "$work/checking/record" --check "${files[@]}" > "$work/checked" || exit $?
    [ -z "$is_again" ] || ! grep -q '^race ' "${files[@]}" || misuse "what a race leaves is by chance, and can't be compared"
}

read_words "$@"
work=$(mktemp -d "${TMPDIR:-/tmp}/emulate-XXXXXX")
machine='' ended=''
clean() {
    [ -z "$machine" ] || kill "$machine" 2> /dev/null || true
    [ -n "$is_leaving" ] || rm -rf "$work"
}
trap clean EXIT
trap 'exit 130' INT TERM HUP
[ -z "$is_install" ] || install_all
need_all
choose_accel
# (the scripts are checked here, and made there)
PAGE_KIB=$page "$here/build.sh" "$work/checking"
if [ "$(arch_of "$kernel")" = x86_64 ]; then
    ln -s checking "$work/built"
else
    PAGE_KIB=$page CC=aarch64-linux-gnu-gcc "$here/build.sh" "$work/built"
fi
if [ -n "$program" ]; then
    run_program "${files[@]}"
    exit $?
fi
if [ -n "$is_staying" ]; then
    stay
    exit $?
fi
check_words
if [ -n "$is_again" ]; then
    compare
else
    record "$work/all" "${files[@]}"
    cat "$work/all"
fi
