"""The command line: ./kernel test, minimize, reproduce, schedules, audit, scripts and known."""
from __future__ import annotations

import kernel.quiet  # (first: it says what Ctrl-C does meanwhile)

import argparse
import os
import signal
import subprocess
import sys
import time
from dataclasses import dataclass, field
from pathlib import Path
from typing import NoReturn

import generate
from kernel import bundle, exploring, in_c, kernels, ktap, report, reproduce, suites
from kernel.audit import command as audit
from kernel.endings import Wrong
from kernel.kernels import Emulation, Kernel, say
from kernel.known import FOLDER, Known, known_issues
from kernel.machine import machine
from kernel.minimize import Minimizer, minimized
from kernel.peers import Cause, peer_scripts
from kernel.problem import Problem
from kernel.testing import Tested, Work, tested

ABOUT = """Finds the calls in which a Linux kernel differs from the machine of this repository.

  ./kernel test --package linux-image-cloud-amd64              boots Debian's kernel in an emulated machine, and tests it
  ./kernel test --package linux-image-cloud-amd64/experimental a package of another suite, or NAME=VERSION
  ./kernel test --kernel bzImage --suites quota                a kernel of your own, one suite
  sudo ./kernel test --here                                    the kernel of this machine
  ./kernel scripts --seed 5 --kind quota > new.txt             random scripts
  ./kernel test --kernel bzImage --scripts new.txt             scripts of your own
  ./kernel minimize new.txt --kernel bzImage                   the smallest script that still differs
  ./kernel reproduce --package linux-image-cloud-amd64         the reports' reproducers, and whether their errors show
  ./kernel schedules my.script                                 all schedules of calls of your own, by Linux's rules
  ./kernel audit --core vmcore                                 who has reserved what in a kernel or a dump, and whether its counts are right
  ./kernel bundle to.tar                                       the recorder and the scripts, for another machine
  ./kernel known                                               the known issues
"""
AFTER = """Status: 0 no new difference; 1 new differences, even if a later suite could not run; 2 could not run, or could not hold a call
for as long as another one took (125 with --bisect).
Fetched kernels are kept in KIRVESSA_CACHE (~/.cache/kirvessa). Without /dev/kvm the processor is emulated, and a suite takes
about a minute. conformance/README.md describes the suites, the scripts and the known issues."""
# the configuration that suffices for all suites
CONFIG = Path(__file__).resolve().parent / "config"
# so many calls a task makes in a race at most where the processor is emulated
RACE_CALLS = 300
# statuses: of a command that can't run; for git bisect run, of a kernel that can't be judged, and of words that are wrong
CANNOT_RUN, CANNOT_JUDGE, BISECTION_ENDS = 2, 125, 128
RAW = argparse.RawDescriptionHelpFormatter


def add_kernel(to: argparse.ArgumentParser) -> argparse._MutuallyExclusiveGroup:
    """The options that say which kernel is asked, and what answers for the machine. Returns those of which one has to be there."""
    which = to.add_mutually_exclusive_group(required=True)
    which.add_argument("--package", metavar="P", help="the kernel of this Debian package, emulated: NAME, NAME/SUITE or NAME=VERSION")
    which.add_argument("--kernel", metavar="VMLINUZ", help="this kernel image, in an emulated machine")
    which.add_argument("--here", action="store_true", help="this machine's own kernel, as root, where no huge page is in use")
    to.add_argument("--append", default="", metavar="WORDS", help="further words for the command line of an emulated kernel")
    to.add_argument("--memory", type=positive, metavar="MIB", help="the memory of the emulated machine (768)")
    to.add_argument("--page", type=positive, default=kernels.PAGE, metavar="KIB", help="the size of huge pages (2048)")
    to.add_argument("--cpus", type=positive, default=2, metavar="N", help="processors of the emulated machine (2)")
    to.add_argument("--seconds", type=positive, default=1800, metavar="N", help="ends an emulated machine that isn't done by then (1800)")
    to.add_argument("--program", metavar="P", help="a program that answers for the machine: 'P replay' reads a trace")
    to.add_argument("--without", action="append", default=[], metavar="NAME", help="treats this known issue as new; may be repeated")
    to.add_argument("--known", type=Path, default=FOLDER, metavar="FOLDER", help="the known issues (conformance/known)")
    return which


def positive(word: str) -> int:
    if not word.isdecimal() or int(word) == 0:
        raise argparse.ArgumentTypeError(f"{word!r} is not a positive number")
    return int(word)


def natural(word: str) -> int:
    if not word.isdecimal():
        raise argparse.ArgumentTypeError(f"{word!r} is not a number")
    return int(word)


def parser() -> argparse.ArgumentParser:
    top = argparse.ArgumentParser(prog="kernel", description=ABOUT, epilog=AFTER, formatter_class=RAW)
    commands = top.add_subparsers(dest="command", required=True, metavar="COMMAND")
    about = "Tests a kernel, and prints each new difference."
    test = commands.add_parser("test", help="tests a kernel", description=about, epilog=AFTER, formatter_class=RAW, allow_abbrev=False)
    which = add_kernel(test)
    which.add_argument("--answers", type=Path, metavar="FOLDER", help="what a bundle's run.sh brought back from another machine")
    which.add_argument("--config", action="store_true", help="prints the configuration that suffices for a kernel of one's own, and ends")
    names = f"of {', '.join(suites.SUITES)} ({' '.join(suites.default(False))} unless named; without {suites.RACES} with --here)"
    test.add_argument("--suites", nargs="+", default=None, metavar="NAME", help=names)
    test.add_argument("--scripts", nargs="+", type=Path, default=[], metavar="FILE", help="files of scripts, as a suite each")
    few = f"calls of a task in a race, at most ({RACE_CALLS} where the processor is emulated, else as the scripts have it)"
    test.add_argument("--race-calls", type=positive, metavar="N", help=few)
    about = "dumps the emulated machine behind each race, and audits it (python3-drgn; symbols of --package, or --vmlinux)"
    test.add_argument("--audit", action="store_true", help=about)
    test.add_argument("--vmlinux", type=Path, metavar="FILE", help="of --audit: the kernel with its symbols")
    test.add_argument("--first", action="store_true", help="ends at the first new difference")
    test.add_argument("--bisect", action="store_true", help="for 'git bisect run': as --first; status 125 where the kernel can't be judged")
    test.add_argument("--panic-on-warn", action="store_true", help="has an emulated kernel panic at a warning, so that nothing runs behind it")
    test.add_argument("--keep-console", type=Path, metavar="FILE", help="keeps what the emulated kernels write to their consoles")
    test.add_argument("--junit", metavar="FILE", help="writes the results as JUnit's XML, too")
    test.add_argument("--json", metavar="FILE", help="writes the results as JSON, too")
    test.add_argument("--ktap", metavar="FILE", help="writes the results as KTAP, too")
    about = "Packs the recorder and the scripts, to be run on a machine where nothing of this is installed."
    pack = commands.add_parser("bundle", help="packs the recorder for another machine", description=about)
    pack.add_argument("file", type=Path, metavar="FILE", help="the archive to write (.tar)")
    pack.add_argument("--suites", nargs="+", default=None, metavar="NAME", help="those of which a kernel keeps no wrong count, unless named")
    about = "Makes a new difference smaller: leaves out calls and lowers numbers until nothing smaller differs in the same way."
    small = commands.add_parser("minimize", help="makes a difference smaller", description=about)
    small.add_argument("script", type=Path, help="a file of scripts")
    small.add_argument("--c", type=Path, metavar="FILE", help="writes a program in C that makes the calls, and needs libc alone")
    small.add_argument("--name", metavar="NAME", help="the script to take (the shortest one that differs)")
    add_kernel(small)
    about = "Runs the reproducers of docs/reports on emulated kernels, and prints on which the errors show. Status: 0 it ran; 2 it could not."
    shown = commands.add_parser("reproduce", help="runs the reproducers of the reports", description=about)
    shown.add_argument("--package", nargs="+", default=[], metavar="P", help="the kernels of these Debian packages: NAME, NAME/SUITE or NAME=VERSION")
    shown.add_argument("--kernel", nargs="+", type=Path, default=[], metavar="VMLINUZ", help="these kernel images")
    shown.add_argument("--race-seconds", type=positive, default=60, metavar="N", help="how long a race is tried (60)")
    shown.add_argument("--seconds", type=positive, default=900, metavar="N", help="ends an emulated machine that isn't done by then (900)")
    audit.add_words(commands.add_parser("audit", help="audits a kernel or a dump", description=audit.ABOUT, epilog=audit.AFTER, formatter_class=RAW))
    orders = commands.add_parser("schedules", help="searches all schedules of a script by Linux's rules", description=exploring.ABOUT,
                                 epilog=exploring.AFTER, formatter_class=RAW)
    exploring.add_words(orders)
    more = commands.add_parser("scripts", help="prints random scripts", description="Prints random scripts; the seed says which.")
    more.add_argument("--seed", type=natural, required=True, metavar="N")
    more.add_argument("--count", type=natural, default=100, metavar="N", help="how many (100)")
    kinds = [*generate.KINDS, generate.RACE]
    more.add_argument("--kind", choices=kinds, default="plain", help="conformance/generate.py --help describes them (plain)")
    commands.add_parser("known", help="lists the known issues", description="Lists the known issues.")
    return top


def kernel_of(options: argparse.Namespace) -> Kernel:
    if options.here:
        return kernels.here(options.page)
    consoles = getattr(options, "keep_console", None)
    if consoles is not None:
        consoles.write_text("", encoding="utf-8")
    is_paused, panics = getattr(options, "audit", False), getattr(options, "panic_on_warn", False)
    how = Emulation(options.cpus, options.seconds, is_paused, panics, consoles, options.append, options.memory, options.page)
    if getattr(options, "answers", None) is not None:
        return bundle.answered(options.answers)
    if options.package is not None:
        return kernels.of_package(options.package, how)
    return kernels.emulated(Path(options.kernel), options.kernel, how)


def cannot(options: argparse.Namespace) -> int:
    """The status of a command that can't run, or of a kernel that can't be judged."""
    return CANNOT_JUDGE if getattr(options, "bisect", False) else CANNOT_RUN


def run_test(options: argparse.Namespace) -> int:
    """Tests a kernel suite by suite; each is one boot, or more where races leave wrong counts."""
    if options.config:
        print(CONFIG.read_text(encoding="utf-8"), end="")
        return 0
    issues = known_issues(options.known, tuple(options.without))
    default = [] if options.scripts else bundle.suites_in(options.answers) if options.answers else suites.default(options.here)
    default = [it for it in default if it != suites.PEERS or options.page == kernels.PAGE]
    chosen = [suites.suite_of(name) for name in (default if options.suites is None else options.suites)]
    if options.page != kernels.PAGE and any(it.name == suites.PEERS for it in chosen):
        raise Problem(f"the suite {suites.PEERS} has calls in bytes, for pages of {kernels.PAGE} KiB")
    files = [(path.name, suites.read_scripts(path)) for path in options.scripts]
    symbols = audit_symbols(options) if options.audit else None
    answering, kernel = machine(options.program), kernel_of(options)
    most = options.race_calls or (RACE_CALLS if kernel.is_slow else None)
    races = most, symbols, options.page
    recorded = {it.name: suites.recorded_of(it) if options.page == kernels.PAGE else {} for it in chosen}
    asserted = {suites.PEERS: peer_scripts()}
    work = [Work(it.name, suites.scripts_of(it), it.has_races, asserted.get(it.name, []), *races, recorded[it.name]) for it in chosen]
    work += [Work(name, some, suites.has_races(some), [], *races) for name, some in files]
    run = Running(options, answering.basis, len(work))
    try:
        for number, it in enumerate(work, 1):
            say(f"{number} of {len(work)}")
            run.found.append(tested(kernel, answering, issues, it, run.tell, run.is_first))
            if run.is_first and run.found[-1].new:
                break
    except FAILURES as why:
        if not run.new:
            raise
        say(words_of(why))
    finally:
        run.report()
    return 1 if run.new else cannot(options) if run.ran_out else 0


@dataclass
class Running:
    """A test that goes on: the suites that ran, and how many new differences were printed."""

    options: argparse.Namespace
    basis: str
    suites: int
    found: list[Tested] = field(default_factory=list)
    new: int = 0
    # by which peers' assertions were told to be broken
    causes: frozenset[Cause] = frozenset()

    @property
    def ran_out(self) -> int:
        """How many scripts show nothing, since a hold ended too early."""
        return sum(len(it.ran_out) for it in self.found)

    @property
    def is_first(self) -> bool:
        return self.options.first or self.options.bisect

    def tell(self, one: Tested) -> None:
        """Prints what is new as soon as it is seen, the first differences in full."""
        self.new += one.new
        if self.new <= report.MOST and (lines := report.news([one], self.causes)):
            print("\n".join(lines), flush=True)
            self.causes |= report.new_causes([one])

    def report(self) -> None:
        """Prints what the suites showed that ran, even if a later one couldn't."""
        if self.found:
            report.write(self.options.json, report.json_text(self.found, self.basis))
            report.write(self.options.junit, report.junit_text(self.found))
            report.write(self.options.ktap, ktap.text(self.found))
            print(report.text(self.found, self.basis, is_told=True))
        if self.found or self.new:
            print(f"kernel: {self.last()}", flush=True)

    def last(self) -> str:
        """The last line. Where not all suites ran, no line may pass for a verdict that the kernel is right."""
        new = f"{self.new} new difference{'' if self.new == 1 else 's'}"
        if self.ran_out and not self.new:
            return f"not judged: the holds of {self.ran_out} scripts ran out, and nothing else is new"
        if len(self.found) == self.suites:
            return f"{new}{', the first of which ended it' if self.new and self.is_first else ''}"
        ran = f"{len(self.found)} of {self.suites} suites ran"
        return f"{new}; {ran}" if self.new else f"not judged: {ran}, and nothing in them is new"


def audit_symbols(options: argparse.Namespace) -> Path:
    """The symbols by which the machine is audited behind each race."""
    if options.here:
        raise Problem("--audit dumps an emulated machine: --package P or --kernel VMLINUZ")
    if options.package is None and options.vmlinux is None:
        raise Problem("--audit needs the kernel's symbols: --vmlinux FILE")
    return options.vmlinux or audit.symbols_of(options.package)


def run_minimize(options: argparse.Namespace) -> int:
    """Minimizes the first new difference of a file."""
    began = time.monotonic()
    issues = known_issues(options.known, tuple(options.without))
    some = [it for it in suites.read_scripts(options.script) if options.name in (None, it.name)]
    if not some:
        raise Problem(f"{options.script} has no script{f' {options.name}' if options.name else ''}")
    minimizer = Minimizer(kernel_of(options), machine(options.program), issues)
    found = minimized(minimizer, some, lambda it: it.known is None)
    print("\n".join(found.text() if isinstance(found, Wrong) else report.difference_text(found)))
    if options.c is not None:
        report.write(str(options.c), in_c.program(found))
    print(f"kernel: {len(found.script.lines)} calls, after {minimizer.boots} boots and {time.monotonic() - began:.0f} s")
    return 1


def run_reproduce(options: argparse.Namespace) -> int:
    images = [kernels.image_of(it) for it in options.package] + [kernels.readable(it) for it in options.kernel]
    if not images:
        raise Problem("which kernel? --package P or --kernel VMLINUZ names some")
    found: list[reproduce.Shown] = []
    try:
        for it in reproduce.show_all(images, options.race_seconds, options.seconds):
            found.append(it)
            print(reproduce.text(it), flush=True)
    finally:
        if found:
            print("\n".join(["", *reproduce.table(found)]), flush=True)
    return 0


def run_known(_: argparse.Namespace) -> int:
    for it in known_issues():
        rules = sorted({one["rule"] for one in it.recordings})
        print(f"{it.name}: {it.title}\n  seen: {', '.join(it.versions)}" + (f"; rule {' '.join(rules)} of races" if rules else ""))
    return 0


def run_scripts(options: argparse.Namespace) -> int:
    return generate.main([str(options.seed), str(options.count), options.kind])


def run_bundle(options: argparse.Namespace) -> int:
    names = options.suites or suites.default(True)
    bundle.pack(options.file, [suites.suite_of(it) for it in names])
    print(f"kernel: {options.file}: unpack it there, run 'sudo ./run.sh', bring its folder 'answers' back: ./kernel test --answers FOLDER")
    return 0


COMMANDS = {"test": run_test, "bundle": run_bundle, "minimize": run_minimize, "reproduce": run_reproduce, "schedules": exploring.run,
            "audit": audit.run, "scripts": run_scripts, "known": run_known}


def end_by_signal(number: int, _: object) -> NoReturn:
    """Ends in order, so that an emulated machine ends too."""
    sys.exit(128 + number)


FAILURES = (Problem, subprocess.CalledProcessError, OSError)


def words_of(why: Exception) -> str:
    """Why a command can't run, in one line."""
    if isinstance(why, subprocess.CalledProcessError):
        return f"{why.cmd[0]} fails on a trace: {(why.stderr or b'').decode(errors='replace').strip()}"
    if isinstance(why, OSError):
        return f"{why.filename or 'the system'}: {why.strerror}"
    return str(why)


def read_words(words: list[str]) -> argparse.Namespace:
    """The words of the command line. Where they are wrong, a bisection has to end, which takes 2 for a kernel that is bad."""
    try:
        return parser().parse_args(words)
    except SystemExit as it:
        sys.exit(BISECTION_ENDS if it.code == 2 and "--bisect" in words else it.code)


def status_of(options: argparse.Namespace) -> int:
    """Runs a command. A bisection is told apart what can't be judged, an error of this program too."""
    try:
        return COMMANDS[options.command](options)
    except FAILURES as why:
        say(words_of(why))
    except Exception as why:
        if cannot(options) == CANNOT_RUN:
            raise
        say(f"{type(why).__name__}: {why}")
    return cannot(options)


def flushed(status: int) -> int:
    """The status once all is written: a reader that is gone, or a disk that is full, is said in one line."""
    try:
        sys.stdout.flush()
    except OSError as why:
        os.dup2(os.open(os.devnull, os.O_WRONLY), sys.stdout.fileno())
        if status in (0, 1):
            say(f"standard output: {why.strerror}")
            return CANNOT_RUN
    return status


def main() -> int:
    for number in (signal.SIGTERM, signal.SIGHUP, signal.SIGINT):
        signal.signal(number, end_by_signal)
    options = read_words(sys.argv[1:])
    if options.command in ("scripts", "known", "schedules"):
        signal.signal(signal.SIGPIPE, signal.SIG_DFL)
    return flushed(status_of(options))


if __name__ == "__main__":
    sys.exit(main())
