"""Reading whole files, and putting files in their place at once."""
import contextlib
import os
import stat
import sys
import tempfile

from .faults import BadInput, NoAccess, reason


def read(path):
    try:
        with open(path, "rb") as file:
            return file.read()
    except (OSError, ValueError) as error:  # a path with a null byte is a ValueError
        raise NoAccess(f"{path}: cannot be read: {reason(error) if isinstance(error, OSError) else error}") from error


def write(path, parts):
    """Puts a file of these parts in its place at once: after a full disk or a kill what was there before is still there, whole."""
    try:
        if is_special(path):
            with open(path, "wb") as file:
                file.writelines(parts)
        else:
            replace(os.path.realpath(path), parts)
    except OSError as error:
        raise NoAccess(f"{path}: cannot be written: {reason(error)}") from error


def is_special(path):
    """A device or a pipe is written to; a file must never take its place."""
    with contextlib.suppress(OSError):
        return not stat.S_ISREG(os.stat(path).st_mode)
    return False


def replace(path, parts):
    """Writes a file beside the path, makes sure that it is on the disk, and gives it the name."""
    number, beside = begin(path)
    try:
        with os.fdopen(number, "wb") as file:
            os.fchmod(number, mode_of(path))
            file.writelines(parts)
            file.flush()
            os.fsync(number)
        os.rename(beside, path)
    except BaseException:
        with contextlib.suppress(OSError):
            os.unlink(beside)
        raise
    sync_folder(os.path.dirname(path))


def begin(path):
    folder, name = os.path.split(path)
    return tempfile.mkstemp(prefix=f".{name[:100]}.", suffix=".part", dir=folder or ".")


def mode_of(path):
    """The rights of the file that is there, or those of a new one."""
    with contextlib.suppress(OSError):
        return stat.S_IMODE(os.stat(path).st_mode)
    return allowed(0o666)


def allowed(rights):
    """Rights of something new, less those that the user's mask takes away."""
    mask = os.umask(0o022)
    os.umask(mask)
    return rights & ~mask


def sync_folder(folder):
    """The new name is on the disk, too, where the file system can tell."""
    with contextlib.suppress(OSError):
        number = os.open(folder or ".", os.O_RDONLY)
        try:
            os.fsync(number)
        finally:
            os.close(number)


def keep_apart(output, *inputs):
    """What is read is never written over."""
    for path in inputs:
        if path is not None and os.path.exists(output) and os.path.exists(path) and os.path.samefile(output, path):
            raise BadInput(f"{output}: this file is read, so it cannot be the output, too")


def try_place(path):
    """Finds out before long work whether a file can be put there at all."""
    if is_special(path):
        if os.path.isdir(path):
            raise NoAccess(f"{path}: cannot be written: it is a folder")
        return
    try:
        number, beside = begin(os.path.realpath(path))
        os.close(number)
        os.unlink(beside)
    except OSError as error:
        raise NoAccess(f"{path}: cannot be written: {reason(error)}") from error


def put_out(parts):
    """To standard output, as bytes."""
    for part in parts:
        sys.stdout.buffer.write(part)
