"""The proved planner and mender, as the release has them: loaded into this process on x86-64; elsewhere one small x86-64
program under an emulator, started once, that answers any number of calls."""

import atexit
import contextlib
import ctypes
import functools
import os
import platform
import shutil
import struct
import subprocess
import threading
from pathlib import Path

from . import rules
from .fault import LibraryFault, clean
from .records import REPLY_BYTES

SONAME = "libfeshangul.so.0"
SERVE = "feshangul-serve"
HERE = Path(__file__).resolve()
RELEASE = HERE.parents[2] / "release"  # where this package is run from the repository
INSTALLED = HERE.parents[3]  # PREFIX/lib, where `make install` has put it
TABLE_BYTES_MAX = 2048
OUTPUT_BYTES = rules.MEND_BYTES_MAX  # of the mended table, and of the list: always enough
PLAN, MEND, AROUND, APART = 0, 1, 2, 3  # the kinds of case that host/serve answers
X86_64 = platform.machine() in ("x86_64", "AMD64")


@functools.cache
def planner():
    """The planner of this machine. FESHANGUL_LIBRARY names another library, FESHANGUL_SERVE another program."""
    if platform.system() != "Linux":
        raise LibraryFault(f"the library is for Linux, and this is {platform.system()}")
    if X86_64 and not os.environ.get("FESHANGUL_SERVE"):
        return Loaded(_library())
    return Served([*_emulator(), _serve()])


class _Mended(ctypes.Structure):
    """What feshangul_mend returns, as the header has it."""

    _fields_ = (("number", ctypes.c_uint32), ("table_len", ctypes.c_uint32), ("list_len", ctypes.c_uint32))


class Loaded:
    """The library in this process. It keeps nothing between calls, so any number of threads may call at once."""

    def __init__(self, path):
        try:
            library = ctypes.CDLL(str(path))
            self._plan, self._mend = library.feshangul_plan, library.feshangul_mend
            self._plan_around, self._plan_apart = library.feshangul_plan_around, library.feshangul_plan_apart
        except (OSError, AttributeError) as error:
            raise LibraryFault(f"the planner's library cannot be loaded: {error}") from None
        self._plan.restype = ctypes.c_uint32
        self._plan.argtypes = [ctypes.c_char_p, ctypes.c_size_t] * 2 + [ctypes.c_uint32] * 4
        for entry in (self._plan_around, self._plan_apart):
            entry.restype = ctypes.c_uint32
            entry.argtypes = [ctypes.c_char_p, ctypes.c_size_t] * 3 + [ctypes.c_uint32] * 4
        self._mend.restype = _Mended
        self._mend.argtypes = [ctypes.c_char_p, ctypes.c_size_t] * 3

    def plan(self, table, source, terminal, reach, allowance, closed=None):
        """The number that feshangul_plan returns, or with a closed set feshangul_plan_around, and the reply that it leaves."""
        reply = ctypes.create_string_buffer(REPLY_BYTES)
        asked = (reply, REPLY_BYTES, source, terminal, reach, allowance)
        if closed is None:
            return self._plan(table, len(table), *asked), reply.raw
        return self._plan_around(table, len(table), closed, len(closed), *asked), reply.raw

    def plan_apart(self, table, source, terminal, reach, allowance, closed):
        """The number that feshangul_plan_apart returns, and the reply that it leaves."""
        reply = ctypes.create_string_buffer(REPLY_BYTES)
        asked = (reply, REPLY_BYTES, source, terminal, reach, allowance)
        return self._plan_apart(table, len(table), closed, len(closed), *asked), reply.raw

    def mend(self, table):
        """The number that feshangul_mend returns, the mended table, and the list of what was changed or lost."""
        mended, listed = ctypes.create_string_buffer(OUTPUT_BYTES), ctypes.create_string_buffer(OUTPUT_BYTES)
        found = self._mend(table, len(table), mended, OUTPUT_BYTES, listed, OUTPUT_BYTES)
        return found.number, mended.raw[: found.table_len], listed.raw[: found.list_len]


class Served:
    """The library in a program beside this one (host/serve). One call at a time is asked of it."""

    def __init__(self, command):
        self._turn = threading.Lock()
        try:
            self._program = subprocess.Popen(command, stdin=subprocess.PIPE, stdout=subprocess.PIPE)
        except OSError as error:
            raise LibraryFault(f"the planner's program cannot be started: {error}") from None
        atexit.register(self.close)

    def close(self):
        """Ends the program: it stops where its input does."""
        with contextlib.suppress(OSError):
            self._program.stdin.close()
        self._program.stdout.close()
        self._program.wait()

    def plan(self, table, source, terminal, reach, allowance, closed=None):
        """As Loaded.plan."""
        return self._planned(PLAN if closed is None else AROUND, table, closed, (source, terminal, reach, allowance))

    def plan_apart(self, table, source, terminal, reach, allowance, closed):
        """As Loaded.plan_apart."""
        return self._planned(APART, table, closed, (source, terminal, reach, allowance))

    def _planned(self, kind, table, closed, asked):
        # Any longer table is refused for its length alone, so one byte more than the most says as much.
        inputs = [data for data in (table[: TABLE_BYTES_MAX + 1], closed) if data is not None]
        numbers = (kind, *map(len, inputs), REPLY_BYTES, *asked)
        answer = self._ask(struct.pack(f"<{len(numbers)}I", *numbers) + b"".join(inputs), 4 + REPLY_BYTES)
        return struct.unpack_from("<I", answer)[0], answer[4:]

    def mend(self, table):
        """As Loaded.mend."""
        table = table[: rules.MEND_BYTES_MAX + 1]  # as much as says that it is too long, as in plan
        case = struct.pack("<4I", MEND, len(table), OUTPUT_BYTES, OUTPUT_BYTES) + table
        answer = self._ask(case, 12 + 2 * OUTPUT_BYTES)
        number, table_len, list_len = struct.unpack_from("<3I", answer)
        mended, listed = answer[12 : 12 + OUTPUT_BYTES], answer[12 + OUTPUT_BYTES :]
        return number, mended[:table_len], listed[:list_len]

    def _ask(self, case, answer_bytes):
        with self._turn:
            try:
                self._program.stdin.write(case)
                self._program.stdin.flush()
                answer = self._program.stdout.read(answer_bytes)
            except OSError:
                answer = b""
        if len(answer) != answer_bytes:
            raise LibraryFault(f"the planner's program has ended with status {self._program.wait()}")
        return answer


def _library():
    given = os.environ.get("FESHANGUL_LIBRARY")
    for path in [given] if given else [RELEASE / "libfeshangul.so", INSTALLED / SONAME]:
        if os.path.exists(path):
            return os.path.abspath(path)
    return given or SONAME  # wherever the system's loader finds it


def _serve():
    given = os.environ.get("FESHANGUL_SERVE")
    for path in [given] if given else [RELEASE / SERVE, INSTALLED / "feshangul" / SERVE]:
        if os.path.exists(path):
            return os.path.abspath(path)
    raise LibraryFault(f"the program {clean(given or SERVE)} is not there; it comes with the release")


def _emulator():
    """What stands before an x86-64 program to run it: Debian's emulator, or else that of the kit."""
    if X86_64:
        return []
    for name in ("qemu-x86_64", "qemu-x86_64-static"):
        if shutil.which(name):
            return [name]
    rt = shutil.which("rt")
    if rt:
        guide = subprocess.run([rt, "doc"], capture_output=True, text=True, check=False).stdout.strip()
        emulator = Path(guide).parent.parent / "on" / platform.machine() / "toolchain/bin/qemu-x86_64"
        if emulator.exists():
            return [str(emulator)]
    raise LibraryFault(
        f"the planner is an x86-64 program and this machine is {platform.machine()}: install Debian's package qemu-user"
    )
