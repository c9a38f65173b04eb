"""Finds libsievecrest.a, makes a shared object of it where there is none yet, and loads that.

Both stand in one folder: the one that SIEVECREST_LIB_DIR names, else crates/sievecrest/out of the repository, where `rt lib` in crates/sievecrest puts the
archive. It is position independent, so all of it is linked as it is.
"""
import ctypes
import functools
import os
import pathlib
import platform
import subprocess
import sys

FOLDER = "SIEVECREST_LIB_DIR"
ARCHIVE = "libsievecrest.a"
SHARED = "libsievecrest.so"
REPOSITORY = pathlib.Path(__file__).resolve().parents[2]


class Unavailable(OSError):
    """The library is not there, or cannot be linked or loaded here; the message says what to do."""


def folder():
    """Where archive and shared object stand."""
    named = os.environ.get(FOLDER)
    return pathlib.Path(named) if named else REPOSITORY / "crates" / "sievecrest" / "out"


def command(archive, shared):
    """What makes the shared object: every function of the archive, none left out because nobody asks for it yet."""
    return [os.environ.get("CC", "cc"), "-shared", "-o", str(shared), "-Wl,--whole-archive", str(archive), "-Wl,--no-whole-archive"]


def link(archive, shared):
    """Makes the shared object under a name of its own first, so that another process never loads half of one."""
    made = shared.with_name(f"{shared.name}.{os.getpid()}")
    words = command(archive, made)
    try:
        done = subprocess.run(words, capture_output=True, text=True, check=False)
        if done.returncode != 0:
            raise Unavailable(f"{' '.join(words)} fails: {done.stderr.strip()[-500:]}")
        os.replace(made, shared)
    except FileNotFoundError:
        raise Unavailable(f"{words[0]} is missing: install a C compiler, or name one in CC; it links {archive}") from None
    except PermissionError as error:
        raise Unavailable(f"{shared} cannot be written: {error.strerror}; run as somebody who may: {' '.join(command(archive, shared))}") from None
    finally:
        made.unlink(missing_ok=True)


def ready(archive, shared):
    """Whether the shared object is there and is not older than the archive."""
    return shared.is_file() and (not archive.is_file() or shared.stat().st_mtime_ns >= archive.stat().st_mtime_ns)


def shared_object():
    """The path of the shared object, which is made first where it is missing or older than the archive."""
    if sys.platform != "linux" or platform.machine() != "x86_64":
        raise Unavailable(f"{ARCHIVE} is for Linux on x86-64, and this is {sys.platform} on {platform.machine()}")
    archive, shared = folder() / ARCHIVE, folder() / SHARED
    if not ready(archive, shared):
        if not archive.is_file():
            raise Unavailable(
                f"{archive} is missing: run `rt lib` in crates/sievecrest, or `./test`, in the repository, or name the library's folder in {FOLDER}"
            )
        link(archive, shared)
    return shared


@functools.lru_cache(maxsize=None)
def loaded():
    """The library, loaded once."""
    path = shared_object()
    try:
        return ctypes.CDLL(str(path.resolve()))
    except OSError as error:
        raise Unavailable(f"{path} cannot be loaded: {error}; remove it, and it is made again") from None
