"""Finds the calls in flight in a kernel's memory: threads that don't sleep, and locks and marks that only a call leaves."""
from __future__ import annotations

import os
import struct
from pathlib import Path
from typing import Iterator

from drgn import Object, Program, ProgramFlags, cast, sizeof
from drgn.helpers.linux.list import list_for_each_entry

from kernel.audit import elf
from kernel.audit.owed import FUNCTIONS, kind_of
from kernel.audit.state import Call, Mount, files_of

# include/linux/sched.h
TASK_INTERRUPTIBLE, PF_EXITING, PF_KTHREAD = 1, 0x4, 0x200000
# the low bits of the owner of a mutex or rwsem; RWSEM_READER_OWNED
OWNER_FLAGS, READER = 7, 1
# THREAD_SIZE of x86-64 without KASAN
STACK = 16 << 10


def named(task: Object) -> str:
    return f"{task.pid.value_()} {task.comm.string_().decode(errors='replace')}"


def is_locked(lock: Object) -> bool:
    """spin_is_locked(), of kernels without PREEMPT_RT"""
    try:
        return bool(lock.rlock.raw_lock.val.counter.value_())
    except AttributeError:
        return False


class Tasks:
    """The threads of a kernel, and what they are doing."""

    def __init__(self, program: Program, core: Path | None) -> None:
        self.program = program
        self.registers = elf.registers(core) if core else {}
        self.stack_size = self.size_of_stack()
        self.functions = sorted(self.found_functions())

    def size_of_stack(self) -> int:
        """THREAD_SIZE"""
        try:
            return sizeof(self.program["init_stack"])
        except (LookupError, TypeError):
            return STACK

    def found_functions(self) -> Iterator[tuple[int, int, str]]:
        """Where the functions are that show a call; one that is inlined everywhere isn't."""
        for name in FUNCTIONS:
            try:
                symbol = self.program.symbol(name)
            except LookupError:
                continue
            yield symbol.address, symbol.address + symbol.size, name

    def calls(self, mounts: list[Mount]) -> list[Call]:
        """The calls in flight, each once: by its thread if that shows what it does, else by what it holds."""
        users = {it.space for file in files_of(mounts) for it in file.mappings}
        found = {task.pid.value_(): Call(named(task), *what) for task in self.threads() if (what := self.doing(task, users))}
        return [*found.values(), *self.held(mounts, found)]

    def threads(self) -> Iterator[Object]:
        """The threads of processes that don't sleep interruptibly, as none does in the middle of a call of hugetlb's."""
        for leader in list_for_each_entry("struct task_struct", self.program["init_task"].tasks.address_of_(), "tasks"):
            if leader.flags.value_() & PF_KTHREAD:
                continue
            for task in list_for_each_entry("struct task_struct", leader.signal.thread_head.address_of_(), "thread_node"):
                if not task.member_("__state").value_() & TASK_INTERRUPTIBLE and not task.exit_state.value_():
                    yield task

    def doing(self, task: Object, users: set[int]) -> tuple[str, str] | None:
        """What shows that a thread is in a call, and of which kind that is; None if it is in none."""
        names = self.on_stack(task)
        if names is not None:
            kind = kind_of(names)
            return (f"is in {', '.join(sorted(names))}", kind) if kind else None
        if self.program.flags & ProgramFlags.IS_LIVE and task.tgid.value_() == os.getpid():
            return None
        if task.flags.value_() & PF_EXITING:
            return "is exiting", "exit"
        return ("runs, has hugetlb mappings, and may be in a call", "running") if task.mm.value_() in users else None

    def on_stack(self, task: Object) -> set[str] | None:
        """The functions of calls to which something on a thread's stack returns; None if the stack of one that runs isn't known.

        Words that are left over from earlier calls may count, too: then more is seen in flight than is.
        """
        if not task.on_cpu.value_():
            return self.named_in(self.stack(task, task.thread.sp.value_()))
        registers = self.registers.get(self.processor(task))
        if registers is None:
            return self.unwound(task)
        rip, cs, rsp = registers
        return set() if cs & 3 else self.named_in((rip, *self.stack(task, rsp)))

    def processor(self, task: Object) -> int:
        """task_cpu()"""
        return (task.thread_info.cpu if hasattr(task.thread_info, "cpu") else task.cpu).value_()

    def stack(self, task: Object, pointer: int) -> tuple[int, ...]:
        """The words of a thread's stack above its pointer; all if that is elsewhere, as in an interrupt."""
        base = task.stack.value_()
        begin = pointer & ~7 if base <= pointer < base + self.stack_size else base
        words = (base + self.stack_size - begin) // 8
        return struct.unpack(f"<{words}Q", self.program.read(begin, 8 * words))

    def named_in(self, words: tuple[int, ...]) -> set[str]:
        low, high = self.functions[0][0], self.functions[-1][1]
        likely = {word for word in words if low <= word <= high}
        return {name for word in likely for begin, end, name in self.functions if begin <= word <= end}

    def unwound(self, task: Object) -> set[str] | None:
        """The functions of calls in the trace of a thread that ran when a kernel crashed."""
        try:
            names = [frame.name for frame in self.program.stack_trace(task)]
        except Exception:  # pylint: disable=broad-except  (drgn has no class of its own: it can't unwind what runs)
            return None
        return {it for it in names if it in FUNCTIONS} if any(names) else None

    def held(self, mounts: list[Mount], known: dict[int, Call]) -> Iterator[Call]:
        """The calls that are seen by what they hold alone. A file that a known call has locked is that call's."""
        if is_locked(self.program["hugetlb_lock"]):
            yield Call("", "hugetlb_lock is held", "lock")
        yield from self.mutexes(known)
        for mount in mounts:
            for it in mount.files:
                owner = self.writer(it.address) if it.locked else None
                if owner is not None and owner.pid.value_() in known:
                    known[owner.pid.value_()].file = it.address
                elif it.locked:
                    yield Call(named(owner) if owner is not None else "", f"holds i_rwsem of {it.name}", "locked", it.address)
                elif it.map.in_progress and not known:
                    yield Call("", f"{it.map.in_progress} changes of the reserve map of {it.name} are in progress", "locked", it.address)

    def mutexes(self, known: dict[int, Call]) -> Iterator[Call]:
        slots = self.program["hugetlb_fault_mutex_table"]
        for slot in range(self.program["num_fault_mutexes"].value_()):
            owner = self.owner(slots[slot])
            if owner is not None and owner.pid.value_() not in known:
                yield Call(named(owner), f"holds fault mutex {slot}", "mutex")
        for pool in range(self.program["hugetlb_max_hstate"].value_()):
            owner = self.owner(self.program["hstates"][pool].resize_lock) if hasattr(self.program["hstates"][pool], "resize_lock") else None
            if owner is not None and owner.pid.value_() not in known:
                yield Call(named(owner), "resizes a pool", "resize")
        if any(self.waiting()):
            yield Call("", "pages wait to be freed (free_hpage_work)", "resize")

    def waiting(self) -> Iterator[bool]:
        try:
            yield bool(self.program["hpage_freelist"].first.value_())
        except LookupError:
            return

    def owner(self, mutex: Object) -> Object | None:
        """mutex_owner(), of kernels without PREEMPT_RT"""
        at = mutex.owner.counter.value_() & ~OWNER_FLAGS if hasattr(mutex, "owner") else 0
        return Object(self.program, "struct task_struct *", value=at) if at else None

    def writer(self, inode: int) -> Object | None:
        """The thread that holds a file's i_rwsem as a writer."""
        lock = cast("struct inode *", Object(self.program, "void *", value=inode)).i_rwsem
        at = lock.owner.counter.value_() if hasattr(lock, "owner") else 0
        return Object(self.program, "struct task_struct *", value=at & ~OWNER_FLAGS) if at and not at & READER else None
