#!/usr/bin/env python3
"""Fetches a Debian package, or the kernel in one, into a folder, and installs nothing.

usage: packages.py PACKAGE FOLDER
       packages.py --kernel PACKAGE FOLDER
       packages.py --symbols PACKAGE FOLDER

PACKAGE may be NAME=VERSION or NAME/SUITE, as for apt. If the configured suites don't have it, the other suites of the same mirror
are searched with a private apt configuration: the machine's sources and lists stay as they are, and no lock of dpkg is taken.
A package for arm64, which has that in its name, is found so in the configured suites, too.
The last line is the path of the package.

With --kernel, the dependencies are followed from a metapackage (linux-image-amd64) to the package that has the kernel's image,
which newer kernels keep in linux-binary-*. Only the image stays in FOLDER. The last line is its path.
With --symbols, only that kernel's vmlinux stays there, of its package linux-image-RELEASE-dbg of the same version.
Status: 0 fetched; 1 not found, no network or no space; 2 usage.
"""
from __future__ import annotations

import os
import re
import shutil
import signal
import subprocess
import sys
import tarfile
import tempfile
from pathlib import Path
from typing import Callable

SOURCES = Path("/etc/apt")
# beside those that are configured, the nearest first
OTHER_SUITES = ("stable", "testing", "unstable", "experimental")
ARM = "arm64"
# what stands behind a suite in a line of sources.list
AREAS = ("main", "contrib", "non-free")


class NotFound(Exception):
    """Why a package can't be had."""


def mirror() -> tuple[str, str]:
    """The address of Debian's mirror that apt has configured, and the file of its keys."""
    for file in sorted(SOURCES.glob("sources.list.d/*.sources")):
        for stanza in file.read_text(encoding="utf-8").split("\n\n"):
            fields = dict(re.findall(r"(?m)^(\w[\w-]*): *(.*)$", stanza))
            if "main" in fields.get("Components", "").split() and not fields.get("Suites", "").endswith("-security"):
                return fields["URIs"].split()[0], fields.get("Signed-By", "")
    for file in [SOURCES / "sources.list", *sorted(SOURCES.glob("sources.list.d/*.list"))]:
        found = re.search(r"(?m)^deb (?:\[.*\] )?(\S+/debian/?) \S+ .*\bmain\b", file.read_text(encoding="utf-8")) if file.is_file() else None
        if found:
            return found[1], ""
    raise NotFound("apt has no mirror of Debian's configured")


def configured_suites() -> tuple[str, ...]:
    """The suites that apt has configured, but those of security updates, which have another address."""
    files = [*SOURCES.glob("sources.list.d/*.sources"), *SOURCES.glob("sources.list.d/*.list"), SOURCES / "sources.list"]
    texts = [it.read_text(encoding="utf-8") for it in files if it.is_file()]
    named = [it for text in texts for it in re.findall(r"(?m)^(?:Suites:|deb (?:\[.*\] )?\S+/debian/? (?=\S+ )) *(\S.*)$", text)]
    return tuple(dict.fromkeys(it for words in named for it in words.split() if re.fullmatch(r"[a-z]+(-updates)?", it) and it not in AREAS))


def is_foreign(package: str) -> bool:
    """Whether a package is for arm64, of which this machine's apt knows nothing."""
    return re.search(rf"-{ARM}\b", package) is not None


def configuration(room: Path, suites: tuple[str, ...] = OTHER_SUITES, architecture: str = "") -> dict[str, str]:
    """An environment in which apt knows other suites, or packages for another processor, alone, and keeps its lists in the room."""
    address, keys = mirror()
    (room / "parts").mkdir(parents=True)
    (room / "lists" / "partial").mkdir(parents=True)
    signed = f"Signed-By: {keys}\n" if keys else ""
    stanza = f"Types: deb\nURIs: {address}\nSuites: {' '.join(suites)}\nComponents: main\n{signed}"
    (room / "parts" / "other.sources").write_text(stanza, encoding="utf-8")
    said = {"Dir::Etc::SourceList": "/dev/null", "Dir::Etc::SourceParts": room / "parts", "Dir::State::Lists": room / "lists",
            "Dir::Cache": room / "cache", "APT::Sandbox::User": "root" if os.geteuid() == 0 else ""}
    said |= {"APT::Architecture": architecture, "APT::Architectures": architecture} if architecture else {}
    (room / "apt.conf").write_text("".join(f'{key} "{value}";\n' for key, value in said.items()), encoding="utf-8")
    return {**os.environ, "APT_CONFIG": str(room / "apt.conf")}


def own_environment() -> dict[str, str]:
    """The machine's own apt configuration."""
    return dict(os.environ)


def run_apt(words: list[str], folder: Path, environment: dict[str, str]) -> subprocess.CompletedProcess[str]:
    return subprocess.run(words, cwd=folder, env=environment, capture_output=True, text=True, check=False)


def apt(words: list[str], folder: Path, environment: dict[str, str]) -> subprocess.CompletedProcess[str]:
    """Runs apt-get. It downloads as this user, since its own user may not write into a private folder."""
    sandbox = f"APT::Sandbox::User={'root' if os.geteuid() == 0 else ''}"
    return run_apt(["apt-get", "-qq", "-o", sandbox, *words], folder, environment)


def dependencies(package: str, folder: Path, environment: dict[str, str]) -> list[str] | None:
    """The dependencies of a package, each as NAME or NAME=VERSION; None if apt doesn't know the package."""
    shown = run_apt(["apt-cache", "show", "--no-all-versions", package], folder, environment)
    if shown.returncode or not shown.stdout.strip():
        return None
    field = re.search(r"(?m)^Depends: (.*)$", shown.stdout)
    return [named(word) for word in re.split(r" *[,|] *", field[1])] if field else []


def named(dependency: str) -> str:
    """A dependency as apt-get takes it; an exact version is kept."""
    name, _, version = re.match(r"([^ (]+)( *\(= *([^)]+)\))?", dependency).groups()
    return f"{name}={version}" if version else name


def image_package(package: str, folder: Path, environment: dict[str, str]) -> str | None:
    """The package that has the kernel's image, found by following dependencies; None if apt doesn't know the package.

    A metapackage depends on linux-image-VERSION, and since 6.19 that one depends on linux-binary-VERSION, which has the image.
    """
    found = dependencies(package, folder, environment)
    if found is None:
        return None
    for kind in ("linux-binary-", "linux-image-"):
        below = next((it for it in found if re.match(rf"{kind}\d", it)), None)
        if below is not None and below != package:
            return image_package(below, folder, environment)
    return package


def symbols_package(package: str, folder: Path, environment: dict[str, str]) -> str | None:
    """The package that has the symbols of the kernel in another one, of the very same version."""
    image = image_package(package, folder, environment)
    return image and symbols_of(image, version_of(image, folder, environment))


def symbols_of(image: str, version: str) -> str:
    """The name of the package with the symbols of the kernel in an image's package."""
    name = re.sub(r"^linux-(?:binary|image)-", "linux-image-", image.partition("=")[0]).removesuffix("-unsigned")
    return f"{name}-dbg={version}"


def version_of(package: str, folder: Path, environment: dict[str, str]) -> str:
    shown = run_apt(["apt-cache", "show", "--no-all-versions", package], folder, environment)
    return re.search(r"(?m)^Version: (.*)$", shown.stdout)[1]


def itself(package: str, _: Path, __: dict[str, str]) -> str:
    return package


# which package is meant by the one that is named
Meant = Callable[[str, Path, dict[str, str]], "str | None"]


def download(package: str, room: Path, environment: dict[str, str]) -> Path | str:
    """The package's file in the room, or why apt failed."""
    ran = apt(["download", package], room, environment)
    found = next(room.glob("*.deb"), None)
    return found if ran.returncode == 0 and found else last_line(ran.stderr) or "apt-get downloaded nothing"


def last_line(text: str) -> str:
    """The line of apt's messages that says most: an address that couldn't be reached, or an error."""
    lines = text.strip().split("\n")
    named = [line for line in lines if "Failed to fetch" in line] + [line for line in lines if line.startswith("E:")]
    return (named or lines[-1:])[0]


def fetch_into(package: str, room: Path, meant: Meant) -> Path:
    """The package's file in the room, from a configured suite or from another one."""
    own, architecture = room / "own", ARM if is_foreign(package) else ""
    own.mkdir()
    environment = own_environment()
    if architecture:
        environment = configuration(room / "configured", configured_suites(), architecture)
        apt(["update"], own, environment)
    real = meant(package, own, environment)
    got = download(real, own, environment) if real else ""
    if isinstance(got, Path):
        return got
    environment = configuration(room / "others", OTHER_SUITES, architecture)
    updated = apt(["update"], own, environment)
    real = meant(package, own, environment)
    got = download(real, own, environment) if real else f"no suite of the mirror has a package {package}"
    if isinstance(got, Path):
        return got
    raise NotFound(last_line(updated.stderr) if updated.stderr.strip() else got)


def fetch(package: str, folder: Path) -> Path:
    """The package's file, fetched from a configured suite or from another one."""
    folder.mkdir(parents=True, exist_ok=True)
    with tempfile.TemporaryDirectory(prefix="packages-") as room:
        fetched = fetch_into(package, Path(room), itself)
        return Path(shutil.move(fetched, folder / fetched.name))


def kernel_member(name: str) -> str | None:
    """The name that a kernel's image gets in the cache, if a package's file is one."""
    if found := re.match(r"(?:\./)?boot/(vmlinuz-[^/]+)$", name):
        return found[1]
    found = re.match(r"(?:\./)?usr/lib/modules/([^/]+)/vmlinuz$", name)
    return f"vmlinuz-{found[1]}" if found else None


def symbols_member(name: str) -> str | None:
    """The name that a kernel's symbols get in the cache, if a package's file has them. (Other paths of the package are links to it.)"""
    if found := re.match(r"(?:\./)?usr/lib/debug/(?:.*/)?(vmlinux-[^/]+)$", name):
        return found[1]
    found = re.match(r"(?:\./)?usr/lib/debug/(?:usr/)?lib/modules/([^/]+)/vmlinux$", name)
    return f"vmlinux-{found[1]}" if found else None


def unpack(package: Path, folder: Path, member_name: Callable[[str], "str | None"]) -> Path:
    """Writes one file of a package into the folder, whole or not at all."""
    with subprocess.Popen(["dpkg-deb", "--fsys-tarfile", package], stdout=subprocess.PIPE) as unpacked:
        with tarfile.open(fileobj=unpacked.stdout, mode="r|") as files:
            for member in files:
                if member.isfile() and (name := member_name(member.name)):
                    folder.mkdir(parents=True, exist_ok=True)
                    part = package.with_name(name)
                    with part.open("wb") as to:
                        shutil.copyfileobj(files.extractfile(member), to)
                    unpacked.kill()
                    return moved(part, folder / name)
    raise NotFound(f"{package.name} has no {'kernel image' if member_name is kernel_member else 'vmlinux'} in it")


def moved(part: Path, to: Path) -> Path:
    """Moves a file to its place in one step, so that a full disk leaves no half of it."""
    beside = to.with_name(f".{to.name}.part")
    try:
        shutil.copyfile(part, beside)
        beside.rename(to)
    except OSError:
        beside.unlink(missing_ok=True)
        if not any(to.parent.iterdir()):
            to.parent.rmdir()
        raise
    return to


def kernels_folder(package: str, cache: Path) -> Path:
    """Where the kernel of a package is kept."""
    return cache / re.sub(r"[/=]", "@", package)


def kept_kernel(package: str, cache: Path) -> Path | None:
    """The kernel of a package that was fetched before."""
    return max(kernels_folder(package, cache).glob("vmlinuz-*"), key=lambda it: it.stat().st_mtime, default=None)


def kernel(package: str, cache: Path) -> Path:
    """The kernel of a package, fetched unless it is in the cache."""
    if kept := kept_kernel(package, cache):
        return kept
    with tempfile.TemporaryDirectory(prefix="packages-") as room:
        return unpack(fetch_into(package, Path(room), image_package), kernels_folder(package, cache), kernel_member)


def symbols(package: str, cache: Path) -> Path:
    """The symbols (vmlinux) of the kernel of a package, fetched unless they are in the cache."""
    folder = kernels_folder(package, cache)
    if kept := max(folder.glob("vmlinux-*"), key=lambda it: it.stat().st_mtime, default=None):
        return kept
    with tempfile.TemporaryDirectory(prefix="packages-") as room:
        return unpack(fetch_into(package, Path(room), symbols_package), folder, symbols_member)


def main(words: list[str]) -> int:
    if words[:1] in (["-h"], ["--help"]):
        signal.signal(signal.SIGPIPE, signal.SIG_DFL)
        print(__doc__, end="")
        return 0
    wanted = {"--kernel": kernel, "--symbols": symbols}.get(next(iter(words), ""))
    names = words[1:] if wanted else words
    if len(names) != 2 or names[0].startswith("-"):
        print("usage: packages.py [--kernel | --symbols] PACKAGE FOLDER", file=sys.stderr)
        return 2
    try:
        print((wanted or fetch)(names[0], Path(names[1])))
    except (NotFound, OSError, tarfile.TarError) as why:
        print(f"packages.py: can't fetch {names[0]}: {why}", file=sys.stderr)
        return 1
    return 0


if __name__ == "__main__":
    sys.exit(main(sys.argv[1:]))
