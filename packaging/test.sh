#!/usr/bin/env bash
# Installs the packages of dist/ on a new Debian system that has no toolchain, and tries them there.
#
#   packaging/test.sh [FOLDER]    the folder that ./package wrote; dist/, if none is named
#
# It needs root, the network, and debootstrap, which makes the system in a temporary folder. Nothing outside of that changes.
#   SUITE=NAME    the release of Debian; bookworm, if none is named
#   MIRROR=URL    where Debian's packages come from; debootstrap's own choice, if none is named
#   BASE=FILE     a .tar of a system as debootstrap made it: it is used in place of a new one, and written if it isn't there
#
# ./check leaves this out. The last line is 'package test: N passed, M failed'.
set -euo pipefail
top=$(realpath "$(dirname "${BASH_SOURCE[0]}")/..")
if [ "${1-}" = --help ] || [ "${1-}" = -h ]; then
    sed -n '2,/^set/{s/^# \{0,1\}//;/^set/d;p}' "${BASH_SOURCE[0]}"
    exit 0
fi
dist=$(realpath "${1:-$top/dist}")

fail() {
    echo "package test: $1" >&2
    exit "$2"
}

if [ "$(id -u)" != 0 ]; then fail "this needs root" 1; fi
for it in debootstrap:debootstrap unshare:util-linux tar:tar; do
    command -v "${it%:*}" > /dev/null || fail "'${it%:*}' is missing (package: ${it#*:}): required" 127
done
compgen -G "$dist/*.deb" > /dev/null || fail "there are no packages in $dist: ./package builds them" 1

room=$(mktemp -d)
trap 'rm -rf --one-file-system "$room"' EXIT
root=$room/root
mkdir "$root"
if [ -n "${BASE-}" ] && [ -e "$BASE" ]; then
    echo "package test: a system from $BASE"
    tar -C "$root" -xf "$BASE"
else
    echo "package test: debootstrap makes a system"
    debootstrap --variant=minbase "${SUITE:-bookworm}" "$root" ${MIRROR:+"$MIRROR"} > "$room/log" 2>&1 || {
        tail -n 20 "$room/log" >&2
        fail "debootstrap failed" 1
    }
    if [ -n "${BASE-}" ]; then tar -C "$root" -cf "$BASE" .; fi
fi
cp -L /etc/resolv.conf "$root/etc/resolv.conf"
mkdir "$root/given"
cp "$dist"/* "$top/packaging/test_inside.sh" "$top/packaging/test_zsh.zsh" "$root/given"
# the crates for Rust, which no package has, as they lie in a clone
mkdir -p "$root/given/library/rust"
for it in Cargo.toml Cargo.lock hugepool hugepool-sys; do cp -r "$top/library/rust/$it" "$root/given/library/rust"; done
# (what is mounted goes with the processes)
unshare --mount --pid --fork -- chroot "$root" /usr/bin/env -i PATH=/usr/local/sbin:/usr/local/bin:/usr/sbin:/usr/bin:/sbin:/bin \
    HOME=/root LC_ALL=C.UTF-8 DEBIAN_FRONTEND=noninteractive bash /given/test_inside.sh
