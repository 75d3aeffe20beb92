"""Packages of the proved program and library, for people who have no toolchain.

usage: ./package

It proves and builds the program and the library, where that isn't done yet, and replaces the folder dist/ by

  hugepool-VERSION-x86_64.tar.gz  the program, libhugepool for C and Python, manual pages, completions, documents and traces
  hugepool_*.deb, libhugepool1_*.deb, libhugepool-dev_*.deb, python3-hugepool_*.deb
                                  the same as packages of Debian's
  hugepool-VERSION-*.whl          the Python module with the library in it, for pip
  hugepool.html                   the library as a page for browsers (./viewer), if the tools for it are there
  SHA256SUMS                      their checksums

In each, the file PROVED has the commit and the toolchain's last lines. VERSION is what `hugepool --version` prints. Two runs on one commit
and one system write the same bytes. packaging/test.sh installs dist/ on a new Debian system, and tries it.

Variables, to try this without proofs; PROVED then says that the files were built elsewhere:
  PACKAGE_PROGRAM=FILE   a program that is built already
  PACKAGE_ARCHIVE=FILE   the same for libhp_c.a, the archive that the toolchain builds of crates/hp_c; without PAGE_MODULE, which
                         ./viewer takes, there is no page then
"""
from __future__ import annotations

import hashlib
import os
import re
import shutil
import signal
import subprocess
import sys
import tempfile
from email.utils import formatdate
from pathlib import Path
from typing import NamedTuple

TOP = Path(__file__).resolve().parent.parent
sys.path.insert(0, str(TOP / "library"))
import archive as library  # noqa: E402

DIST = TOP / "dist"
CRATES = TOP / "crates"
# the commands that it needs, each with its Debian package
NEEDS = {
    "git": "git",
    "make": "make",
    "cc": "gcc",
    "ar": "binutils",
    "tar": "tar",
    "gzip": "gzip",
    "help2man": "help2man",
    "pandoc": "pandoc",
    "dh": "debhelper",
    "dh_python3": "dh-python",
    "dpkg-buildpackage": "dpkg-dev",
    "lintian": "lintian",
}
# Python's modules that make a wheel, each with its Debian package
MODULES = {"setuptools": "python3-setuptools", "wheel": "python3-wheel"}
# what a package is made of, beside what the toolchain builds
PARTS = ("library", "docs", "examples", "packaging")
PACKAGES = ("hugepool", "libhugepool1", "libhugepool-dev", "python3-hugepool")
PIPED = {"stdin": subprocess.DEVNULL, "stdout": subprocess.PIPE, "stderr": subprocess.STDOUT, "text": True, "errors": "replace"}
VERDICT = re.compile(r"(?:axioms |logic=)")
CRATE = re.compile(r"crate (\w+): modules ")


class Failed(Exception):
    """Why nothing was packaged."""


class Commit(NamedTuple):
    name: str
    seconds: int
    is_changed: bool


class Built(NamedTuple):
    """A file that the toolchain built, and what it printed of each crate. Of a file that was built elsewhere nothing is known."""

    file: Path
    printed: dict[str, list[str]] | None


def say(text: str) -> None:
    print(f"package: {text}", flush=True)


def run(words: list[str | Path], **how: object) -> str:
    """Runs a command, and returns what it prints. Where it fails, that is why nothing is packaged."""
    ran = subprocess.run(words, **PIPED, **how)
    if ran.returncode:
        raise Failed(f"{ran.stdout}package: {' '.join(map(str, words))}: status {ran.returncode}")
    return ran.stdout


def missing(is_built: bool) -> list[str]:
    """Says which commands are missing."""
    needs = NEEDS if is_built else {"rt": "the Rattle toolchain, which is no package of Debian's", **NEEDS}
    say(f"needs {', '.join(needs)}")
    lacking = [it for it in needs if not shutil.which(it)]
    needs |= {f"the Python module {it}": package for it, package in MODULES.items()}
    lacking += [] if wheelwright() else [f"the Python module {it}" for it in MODULES]
    for it in lacking:
        say(f"'{it}' is missing (package: {needs[it]}): required")
    return lacking


def wheelwright() -> str | None:
    """A Python that has the modules which make a wheel."""
    imports = ["-c", f"import {', '.join(MODULES)}"]
    pythons = filter(shutil.which, (sys.executable, "/usr/bin/python3"))
    return next((it for it in pythons if subprocess.run([it, *imports], stderr=subprocess.DEVNULL).returncode == 0), None)


def commit() -> Commit:
    name, seconds = run(["git", "log", "-1", "--format=%H %ct"], cwd=TOP).split()
    return Commit(name, int(seconds), bool(run(["git", "status", "--porcelain"], cwd=TOP)))


def verdicts(text: str) -> dict[str, list[str]]:
    """Of each crate what the toolchain printed of its verdict, and of the functions of C that its proof takes as written."""
    found, crate = {}, ""
    for line in text.splitlines():
        if named := CRATE.match(line):
            crate = named[1]
        elif VERDICT.match(line):
            found.setdefault(crate, []).append(line)
    return found


def is_proved(printed: dict[str, list[str]], crate: str) -> bool:
    return printed.get(crate, [""])[-1].startswith("logic=proved ")


def program() -> Built:
    """The program, proved and built where it isn't. Logs of its last build are those that aren't older than its beginning."""
    if given := os.environ.get("PACKAGE_PROGRAM"):
        return Built(Path(given).resolve(), None)
    say("proving and building the program, where that isn't done yet")
    if subprocess.run([TOP / "hugepool", "build"], stdin=subprocess.DEVNULL).returncode:
        raise Failed("package: ./hugepool build failed")
    out = CRATES / "hugepool" / "out"
    began = (out / "hugepool.begun").stat().st_mtime
    logs = [it for it in sorted((out / "proving").glob("*.log")) if it.stat().st_mtime >= began]
    return Built(out / "hugepool", verdicts("\n".join(it.read_text("utf-8", "replace") for it in logs)))


def archive() -> Built:
    """The library: proved and built, or what PACKAGE_ARCHIVE names."""
    if given := os.environ.get("PACKAGE_ARCHIVE"):
        return Built(Path(given).resolve(), None)
    say("proving and building the library, where that isn't done yet")
    try:
        printed = verdicts(library.prove("package"))
    except library.Failed as why:
        raise Failed(str(why)) from None
    if not is_proved(printed, "hp_c"):
        raise Failed("package: rt lib in crates/hp_c doesn't say logic=proved")
    return Built(library.ARCHIVE, printed)


def version_of(file: Path) -> str:
    """What the program says by --version."""
    said = run([file, "--version"])
    if not (found := re.fullmatch(r"hugepool (\d+\.\d+\.\d+)\n", said)):
        raise Failed(f"package: this is no version: {said}")
    return found[1]


def proved(version: str, of: Commit, builds: dict[str, Built]) -> str:
    """The text of PROVED."""
    changes = ", with changes that aren't committed" if of.is_changed else ""
    lines = [f"hugepool {version}", f"commit {of.name} of {formatdate(of.seconds)}{changes}"]
    if any(it.printed is not None for it in builds.values()):
        lines.append(f"toolchain (rt --version) {run(['rt', '--version']).strip()}")
    for name, built in builds.items():
        lines += ["", f"{name}, sha256 {hashlib.sha256(built.file.read_bytes()).hexdigest()}"]
        if built.printed is None:
            lines.append("  built elsewhere and given to ./package: nothing is said here of its proof")
        elif not built.printed:
            lines.append("  proved and built before, by a command whose lines weren't kept")
        for crate, printed in (built.printed or {}).items():
            lines += [f"  {crate}: {it}" for it in printed]
    return "\n".join([*lines, "", *CHECKING])


CHECKING = """The checksums are of the files as the toolchain built them. The .tar.gz has the program as it was built; in Debian's
packages it is stripped. The archive is the member hp_c.o of libhugepool.a; its other member is library/heap.c.

The lines of a crate are the last that the toolchain printed as it proved it, and before them the functions of C
that the proof takes as written ("axioms"). A crate is proved after those that it stands on; one that an earlier
build proved has no line here.

To check it anew, with the toolchain, in a clone of the repository at that commit: ./check all proves everything
from nothing and runs the tests; ./package builds these files. docs/PROVED.md lists what is proved, and
docs/LIBRARY.md what is trusted.
""".splitlines() + [""]


def changelog(version: str, of: Commit) -> str:
    """The changelog of the Debian packages: one entry, of the commit and its date."""
    control = (TOP / "packaging" / "debian" / "control").read_text(encoding="utf-8")
    maintainer = re.search(r"^Maintainer: (.*)$", control, re.M)[1]
    entry = f"  * Built from commit {of.name}."
    return f"hugepool ({version}) unstable; urgency=medium\n\n{entry}\n\n -- {maintainer}  {formatdate(of.seconds)}\n"


def lay_out(tree: Path, version: str, of: Commit, builds: dict[str, Built]) -> None:
    """Writes the folder that packages are built in: files of the repository, built/ with what the toolchain built, and debian/."""
    for name in run(["git", "ls-files", "-z", *PARTS], cwd=TOP).split("\0"):
        if name and (TOP / name).is_file():
            (tree / name).parent.mkdir(parents=True, exist_ok=True)
            shutil.copy(TOP / name, tree / name)
    (tree / "built").mkdir()
    for name, built in builds.items():
        shutil.copy(built.file, tree / "built" / name)
    (tree / "built" / "PROVED").write_text(proved(version, of, builds), encoding="utf-8")
    shutil.copytree(tree / "packaging" / "debian", tree / "debian")
    (tree / "debian" / "changelog").write_text(changelog(version, of), encoding="utf-8")


def make(tree: Path, version: str, own: dict[str, str], *words: str) -> None:
    """Has the Makefile build or install what packages hold."""
    given = [f"{key}=built/{it}" for key, it in (("PROGRAM", "hugepool"), ("ARCHIVE", "libhp_c.a"), ("PROVED", "PROVED"))]
    given += [f"VERSION={version}", f"BUILD={tree.parent / 'build'}", f"PYTHON={wheelwright()}"]
    run(["make", "--file=packaging/Makefile", *given, *words], cwd=tree, env=own)


def pack_tar(tree: Path, version: str, own: dict[str, str]) -> Path:
    """The .tar.gz, whose files stand below one folder, so that it can lie anywhere."""
    name = f"hugepool-{version}-x86_64"
    say("the .tar.gz: manual pages, completions, libraries")
    make(tree, version, own, "prefix=", "pcprefix=$${pcfiledir}/../..", f"DESTDIR={tree.parent / name}", "install")
    plain = ["--sort=name", f"--mtime=@{own['SOURCE_DATE_EPOCH']}", "--owner=0", "--group=0", "--numeric-owner", "--format=gnu"]
    run(["tar", *plain, "--use-compress-program=gzip -9n", "-cf", f"{name}.tar.gz", name], cwd=tree.parent, env=own)
    return tree.parent / f"{name}.tar.gz"


def pack_wheel(tree: Path, version: str, own: dict[str, str]) -> Path:
    """The Python module with the library in it."""
    say("the wheel")
    make(tree, version, own, "wheel")
    [made] = (tree.parent / "build" / "wheel").glob("*.whl")
    return made


def pack_deb(tree: Path, own: dict[str, str]) -> list[Path]:
    """The Debian packages, which lintian has to find no error in."""
    say("Debian's packages, which are built anew")
    run(["dpkg-buildpackage", "--build=binary", "--unsigned-source", "--unsigned-changes"], cwd=tree, env=own)
    files = sorted(tree.parent.glob("*.deb"))
    if sorted(it.name.split("_")[0] for it in files) != sorted(PACKAGES):
        raise Failed(f"package: other packages were built than {', '.join(PACKAGES)}: {', '.join(it.name for it in files)}")
    say("lintian")
    print(run(["lintian", "--allow-root", "--fail-on=error", *files]), end="", flush=True)
    return files


def page(to: Path) -> list[Path]:
    """The page for browsers, if it can be built of the library that is packaged."""
    if os.environ.get("PACKAGE_ARCHIVE") and not os.environ.get("PAGE_MODULE"):
        say("the page is left out: PACKAGE_ARCHIVE names a library whose module isn't known, and PAGE_MODULE names none")
        return []
    say("the page")
    status = subprocess.run([TOP / "viewer", to], stdin=subprocess.DEVNULL).returncode
    if status == 127:
        say("the page is left out, since tools for it are missing")
        return []
    if status:
        raise Failed("package: ./viewer failed")
    return [to]


def replace(files: list[Path]) -> None:
    """Puts these files into dist/, in place of what is there."""
    shutil.rmtree(DIST, ignore_errors=True)
    DIST.mkdir()
    sums = []
    for it in files:
        shutil.copy(it, DIST / it.name)
        sums.append(f"{hashlib.sha256(it.read_bytes()).hexdigest()}  {it.name}\n")
        say(f"dist/{it.name}: {it.stat().st_size:,} bytes")
    (DIST / "SHA256SUMS").write_text("".join(sums), encoding="utf-8")


def package() -> None:
    of, builds = commit(), {"hugepool": program(), "libhp_c.a": archive()}
    version = version_of(builds["hugepool"].file)
    own = {**os.environ, "SOURCE_DATE_EPOCH": str(of.seconds), "LC_ALL": "C.UTF-8", "TZ": "UTC"}
    os.umask(0o022)
    with tempfile.TemporaryDirectory(prefix="package-") as room:
        tree = Path(room) / f"hugepool-{version}"
        tree.mkdir()
        lay_out(tree, version, of, builds)
        say(f"hugepool {version}, commit {of.name}")
        files = [pack_tar(tree, version, own), pack_wheel(tree, version, own)]
        replace([*files, *pack_deb(tree, own), *page(tree.parent / "hugepool.html")])


def main(words: list[str]) -> int:
    if words:
        is_asked = words in (["-h"], ["--help"], ["help"])
        signal.signal(signal.SIGPIPE, signal.SIG_DFL)
        print(__doc__ if is_asked else __doc__.split("\n\n")[1] + "\n", end="", file=sys.stdout if is_asked else sys.stderr)
        return 0 if is_asked else 2
    if missing(all(os.environ.get(it) for it in ("PACKAGE_PROGRAM", "PACKAGE_ARCHIVE"))):
        return 127
    try:
        package()
    except Failed as why:
        print(why, file=sys.stderr)
        return 1
    return 0


if __name__ == "__main__":
    sys.exit(main(sys.argv[1:]))
