"""What both benches share: builds the programs, runs them in turn, and tells what they used.

Times are processor time, user and system, of the one child that ran a program. Peak memory is read of the child
itself as it ends: what a parent learns afterwards counts also what the child had while it was still the parent's copy.
"""
import ctypes
import os
import re
import shutil
import subprocess
import sys
from pathlib import Path

PROVED = ["crates/hugepool/out/hugepool", "replay"]
PLAIN = Path("bench/plain/target/release")
# the numbers that Linux's ptrace.h gives
TRACE_ME, CONTINUE, SET_OPTIONS, STOP_AT_EXIT = 0, 7, 0x4200, 0x40


def prepare():
    """Builds what isn't built yet: our program by ./hugepool, the plain ones by cargo."""
    if shutil.which("cargo") is None:
        sys.exit("bench: 'cargo', which builds the plain programs, is not on the PATH")
    built = subprocess.run(["./hugepool", "--help"], env={**os.environ, "HUGEPOOL": "proved"}, stdout=subprocess.DEVNULL)
    if built.returncode != 0:
        sys.exit("bench: ./hugepool was not built")
    if subprocess.run(["cargo", "build", "--quiet", "--release"], cwd="bench/plain").returncode != 0:
        sys.exit("bench: cargo did not build the plain programs")


def script_of_tasks(frames, tasks, rounds):
    """Tasks that map a file, store and load, and punch, each some rounds."""
    lines = [f"pool {frames} 4 16 {tasks}"]
    for at in range(rounds):
        for task in range(1, tasks + 1):
            file = task % 4
            calls = [f"map {file} {at} 2", f"store {2 * at} 5", f"load {2 * at}", f"punch {file} {at} 1"]
            lines += [f"begin {task} {call}" for call in calls]
    return "\n".join(lines) + "\n"


def processor_time(words, trace):
    """The seconds of processor time, user and system, of one run."""
    streams = [(os.POSIX_SPAWN_OPEN, 0, trace, os.O_RDONLY, 0), (os.POSIX_SPAWN_OPEN, 1, os.devnull, os.O_WRONLY, 0)]
    child = os.posix_spawn(words[0], words, os.environ, file_actions=streams)
    _, status, used = os.wait4(child, 0)
    if status != 0:
        sys.exit(f"bench: {words[0]} failed on {trace}")
    return used.ru_utime + used.ru_stime


def best_of(trace, programs, rounds):
    """Runs the programs in turn, so many rounds, and tells the best time of each."""
    seen = [[processor_time(words, trace) for words in programs] for _ in range(rounds)]
    return [min(times) for times in zip(*seen)]


def in_turn(name, trace, programs, rounds):
    """Runs the programs in turn, so many rounds, and prints the best of each and the ratio of these."""
    best = best_of(trace, programs.values(), rounds)
    print(f"{name}, seconds of processor time, best of {rounds} rounds in turn:")
    for program, seconds in zip(programs, best):
        print(f"  {program:8} {seconds:.3f}")
    print(f"  ratio    {best[0] / best[1]:.2f}")


def peak_memory(words, trace):
    """The most KiB that a run had in memory, or None where this system lets nobody trace a child."""
    trace_child = ctypes.CDLL(None, use_errno=True).ptrace
    trace_child.argtypes = [ctypes.c_long, ctypes.c_long, ctypes.c_void_p, ctypes.c_void_p]
    child = os.fork()
    if child == 0:
        try:
            os.dup2(os.open(trace, os.O_RDONLY), 0)
            os.dup2(os.open(os.devnull, os.O_WRONLY), 1)
            if trace_child(TRACE_ME, 0, None, None) == 0:
                os.execv(words[0], words)
        finally:
            os._exit(127)
    if not os.WIFSTOPPED(os.waitpid(child, 0)[1]):
        return None
    # it has just become the program: let it run up to its end
    trace_child(SET_OPTIONS, child, None, STOP_AT_EXIT)
    trace_child(CONTINUE, child, None, None)
    if not os.WIFSTOPPED(os.waitpid(child, 0)[1]):
        return None
    told = Path(f"/proc/{child}/status").read_text()
    trace_child(CONTINUE, child, None, None)
    os.waitpid(child, 0)
    return int(re.search(r"VmHWM:\s+(\d+) kB", told).group(1))


def print_memory(runs):
    """Prints the peak memory of each run, and of a program that does nothing."""
    for name, words, trace in [*runs, ("a program that does nothing", [shutil.which("true")], os.devnull)]:
        peak = peak_memory(words, trace)
        print(f"peak memory of {name}: " + ("not to be had here" if peak is None else f"{peak} KiB"))
