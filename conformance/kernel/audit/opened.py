"""Opens the running kernel or a dump of one with its symbols, by drgn. Whatever is wrong with them is one line."""
from __future__ import annotations

import os
import re
import sys
from pathlib import Path

from kernel.audit import elf
from kernel.problem import Problem

DEBIAN_PYTHON = "/usr/bin/python3"
KCORE, NOTES = Path("/proc/kcore"), Path("/sys/kernel/notes")
# __START_KERNEL_map of x86-64
IMAGE = 0xFFFFFFFF80000000


def need_drgn() -> None:
    """Goes on in Debian's own Python if drgn is there alone; ends with one line if it is nowhere."""
    try:
        import drgn  # noqa: F401  pylint: disable=import-outside-toplevel,unused-import
    except ImportError:
        if os.path.realpath(sys.executable) != os.path.realpath(DEBIAN_PYTHON) and os.access(DEBIAN_PYTHON, os.X_OK):
            if not os.environ.get("KERNEL_AUDIT_AGAIN"):
                os.environ["KERNEL_AUDIT_AGAIN"] = "1"
                os.execv(DEBIAN_PYTHON, [DEBIAN_PYTHON, "-B", "-m", "kernel", *sys.argv[1:]])
        raise Problem("'drgn' (package: python3-drgn) is missing, which reads the memory of kernels") from None


def first_line(why: BaseException) -> str:
    return (str(why).strip() or type(why).__name__).splitlines()[0]


def opened(core: Path | None, symbols: list[Path]) -> "Program":  # noqa: F821
    """The running kernel, or a dump, with its symbols."""
    from drgn import MissingDebugInfoError, Program  # pylint: disable=import-outside-toplevel

    for path in symbols:
        check_readable(path, "no file of symbols that can be read")
    program = Program()
    if core:
        open_dump(program, core)
    else:
        open_kernel(program)
    release = release_of(program)
    check_build(core, symbols, release)
    try:
        program.load_debug_info([str(it) for it in symbols] or None, main=not symbols)
    except MissingDebugInfoError as why:
        raise Problem(missing(symbols, release)) from why
    except Exception as why:  # pylint: disable=broad-except  (drgn raises Exception itself)
        raise Problem(f"the symbols can't be read: {first_line(why)}") from why
    check_symbols(program, release)
    return program


def missing(symbols: list[Path], release: str) -> str:
    if symbols:
        return f"{', '.join(map(str, symbols))}: no symbols of Linux {release} in it"
    return f"no symbols of Linux {release}: --package P fetches them, --vmlinux FILE names them, or package linux-image-{release}-dbg has them"


def check_readable(path: Path, what: str) -> None:
    if not path.is_file() or not os.access(path, os.R_OK):
        raise Problem(f"{path} is {what}")


def open_kernel(program: "Program") -> None:  # noqa: F821
    try:
        program.set_kernel()
    except OSError as why:
        how = "the kernel may be locked down (confidentiality), or the container has no CAP_SYS_RAWIO"
        how = "root alone may read it" if os.geteuid() else "the kernel or the container has none" if not KCORE.exists() else how
        raise Problem(f"{KCORE} can't be read ({why.strerror}): {how}") from why
    except Exception as why:  # pylint: disable=broad-except  (drgn raises Exception itself)
        raise Problem(f"{KCORE} can't be read: {first_line(why)}") from why


def open_dump(program: "Program", core: Path) -> None:  # noqa: F821
    check_readable(core, "no dump that can be read")
    try:
        elf.check_whole(core)
    except elf.Torn as why:
        raise Problem(f"the dump {core} is torn: {why}") from why
    try:
        program.set_core_dump(str(core))
    except Exception as why:  # pylint: disable=broad-except  (drgn raises Exception itself)
        raise Problem(f"the dump {core} can't be read: {first_line(why)}") from why
    if not is_kernels(program):
        raise Problem(f"the dump {core} is of no kernel: it has no VMCOREINFO")
    map_image(program, core)


def is_kernels(program: "Program") -> bool:  # noqa: F821
    from drgn import ProgramFlags  # pylint: disable=import-outside-toplevel

    return bool(program.flags & ProgramFlags.IS_LINUX_KERNEL)


def map_image(program: "Program", core: Path) -> None:  # noqa: F821
    """Has the kernel's image read by its physical address. QEMU's dumps know no other, and drgn finds the page tables by the image."""
    if base := elf.vmcoreinfo(core).get("NUMBER(phys_base)"):
        shift = int(base) - IMAGE
        program.add_memory_segment(IMAGE, 1 << 30, lambda address, size, _, __: program.read(address + shift, size, True))


def release_of(program: "Program") -> str:  # noqa: F821
    """The kernel's release, which a dump has without symbols, too."""
    try:
        return program["UTS_RELEASE"].string_().decode()
    except Exception:  # pylint: disable=broad-except  (drgn raises Exception itself)
        return "?"


def check_build(core: Path | None, symbols: list[Path], release: str) -> None:
    """Refuses symbols whose build ID isn't the kernel's: a rebuild has the same name. Where an ID isn't known, the name decides later."""
    kernel = elf.vmcoreinfo(core).get("BUILD-ID") if core else elf.build_id_in(NOTES.read_bytes()) if os.access(NOTES, os.R_OK) else None
    for path in symbols:
        found = elf.build_id(path) if kernel and re.match(r"vmlinux", path.name) else None
        if found and found != kernel:
            raise Problem(f"{path} has the symbols of another kernel than this {release}: its build ID is {found}, the kernel's is {kernel}")


def check_symbols(program: "Program", release: str) -> None:  # noqa: F821
    """Refuses symbols by which the kernel's name isn't where it is (drgn takes any file), and kernels without hugetlbfs."""
    try:
        found, reason = program["init_uts_ns"].name.release.string_().decode(), ""
    except Exception as why:  # pylint: disable=broad-except  (drgn raises Exception itself)
        found, reason = None, f" ({first_line(why)})"
    if found != release:
        raise Problem(f"the symbols are of another kernel than Linux {release}, or the dump lacks the kernel's own memory{reason}")
    try:
        program["hugetlbfs_fs_type"], program["hstates"]  # pylint: disable=pointless-statement
    except LookupError as why:
        raise Problem(f"Linux {release} has no hugetlbfs (CONFIG_HUGETLBFS): there is nothing to audit") from why
