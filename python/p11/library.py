"""The library for C (pdp1140.h): where it is, its calls as ctypes has them, and how they fail."""
import ctypes
import functools
import glob
import os
import subprocess
from ctypes import c_char_p, c_int32, c_size_t, c_uint16, c_uint32, c_uint64, c_void_p

HERE = os.path.dirname(os.path.realpath(__file__))
DONE, BAD_SIZE, TOO_SMALL, NO_FILE, TOO_MANY = 0, 2, 4, 7, 8
STATUSES = {
    1: "there is no memory for it",
    2: "no machine has these sizes: 4 to 124 thousand words in steps of 4, and 0 to 4096 decoded instructions",
    3: "a file has 4,294,967,296 bytes or more",
    5: "the script is too long",
    6: "the machine is closed",
    7: "the machine has no file of this name",
    8: "a run has 1 to 100,000,000 turns, and all of a machine at most 2**62",
}


class Failed(RuntimeError):
    """What the library can't do, with the `number` of its status (pdp1140.h)."""

    def __init__(self, number: int, text: str = ""):
        super().__init__(text or STATUSES.get(number, f"the library answers status {number}"))
        self.number = number


class OutOfRange(Failed, ValueError):
    """A number that no call takes: a size that no machine has, or turns that no run has."""


class InUse(RuntimeError):
    """A call for a machine or a console that another thread uses at the same time."""

    def __init__(self) -> None:
        super().__init__("another thread uses it now; a machine or a console belongs to one thread at a time")


def status_failed(status: int) -> Failed:
    """The exception for a status that isn't P11_DONE."""
    return OutOfRange(status) if status in (BAD_SIZE, TOO_MANY) else Failed(status)


def whole(number: int, status: int) -> int:
    """A number that an argument of 32 bits takes; one that it doesn't take is out of range, with this status."""
    if not 0 <= number < 1 << 32:
        raise OutOfRange(status)
    return number


class Handle(ctypes.Structure):
    """What holds a machine or none."""
    _fields_ = [("at", c_void_p), ("machines", c_uint32)]


class Run(ctypes.Structure):
    """What a run came to."""
    _fields_ = [("turns", c_uint32), ("reason", c_uint16), ("pc", c_uint16)]


class RegistersTold(ctypes.Structure):
    """The registers of a machine."""
    _fields_ = [("turns", c_uint64), ("general", c_uint16 * 6)] + [
        (name, c_uint16) for name in ("kernel_sp", "user_sp", "pc", "status", "status_0", "status_2", "mark")]


# A handle and what is told are given by their addresses, which ctypes passes on quickest.
BYTES, HANDLE, TOLD = (c_char_p, c_size_t), c_void_p, c_void_p
ROOM = (c_char_p, c_size_t, TOLD)
CALLS = {
    "p11_new": (c_uint32, c_uint32, *BYTES, HANDLE),
    "p11_line": (HANDLE, *BYTES),
    "p11_run": (HANDLE, c_uint32, c_uint32, TOLD),
    "p11_steps_until": (HANDLE, c_char_p, c_size_t, c_uint32, TOLD),
    "p11_put_file": (HANDLE, *BYTES, *BYTES),
    "p11_file": (HANDLE, *BYTES, *ROOM),
    "p11_forget": (HANDLE, *BYTES),
    "p11_answer": (HANDLE, *ROOM),
    "p11_typed_text": (HANDLE, *ROOM),
    "p11_regs": (HANDLE, TOLD),
    "p11_keys_waiting": (HANDLE, TOLD),
    "p11_drop": (HANDLE,),
}


def find() -> str:
    """The shared object: what P11_LIBRARY names, the one that lies beside this module, the installed one, or the clone's, which is
    built where it isn't."""
    named, own = os.environ.get("P11_LIBRARY"), os.path.join(HERE, "libpdp1140.so")
    if named:
        return os.path.abspath(named)
    if os.path.exists(own):
        return own
    top = os.path.dirname(os.path.dirname(HERE))
    build = os.path.join(top, "build")
    if os.path.exists(build):
        built = subprocess.run([build, "p11_c"], stdout=subprocess.PIPE, text=True)
        if built.returncode:
            raise OSError(f"{build} can't build the library")
        return os.path.join(os.path.dirname(built.stdout.strip()), "libpdp1140.so")
    # an installation has this module in PREFIX/libexec/p11/python/p11 and in PREFIX/share/doc/p11/python/p11
    folders = [os.path.realpath(os.path.join(top, above, "lib")) for above in ("../..", "../../..")]
    for folder in folders:
        found = glob.glob(os.path.join(folder, "p11", "libpdp1140.so")) + glob.glob(os.path.join(folder, "*", "p11", "libpdp1140.so"))
        if found:
            return found[0]
    raise OSError(f"there is no {own}, and no p11/libpdp1140.so below {' or '.join(folders)}: P11_LIBRARY names the library")


@functools.lru_cache(maxsize=None)
def load() -> ctypes.CDLL:
    """The library, with the types of its calls; OSError: it isn't there, or it's another one."""
    path = find()
    try:
        library = ctypes.CDLL(path)
    except OSError as cause:
        raise OSError(f"{path} can't be loaded: {cause}; P11_LIBRARY names another") from None
    try:
        library.p11_version.restype = c_char_p
        library.p11_version.argtypes = []
        for name, types in CALLS.items():
            call = getattr(library, name)
            call.argtypes, call.restype = types, c_int32
        library.p11_drop.restype = None
    except AttributeError as cause:
        raise OSError(f"{path} isn't the library for p11 1.x: {cause}; P11_LIBRARY names another") from None
    said = library.p11_version().decode()
    if not said.startswith("p11 1."):
        raise OSError(f"{path} is {said.partition(';')[0]}, and this module wants p11 1.x; P11_LIBRARY names another")
    return library


def version() -> str:
    """Which library this is: its version, whether it's proved, its sources' sum, the toolchain's kit."""
    said: bytes = load().p11_version()
    return said.decode()
