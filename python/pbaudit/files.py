"""Files as they are given: by a path, as bytes, or opened."""
import errno
import os
import reprlib
from typing import Any, List, Optional, Protocol, Union


class Opened(Protocol):
    """A binary file that is open for reading."""

    def read(self, size: int = ..., /) -> bytes: ...


Path = Union[str, "os.PathLike[str]"]
# The path of a file, its bytes, or an open file, which is read from where it stands to its end.
File = Union[bytes, bytearray, memoryview, Path, Opened]
# A file of more bytes than this is refused, so no more than one byte more is ever read.
MOST_BYTES = 2**28


def bytes_of(file: File) -> bytes:
    """The bytes of a file. Raises OSError with the path where it can't be read."""
    if isinstance(file, bytes):
        return file
    if isinstance(file, (bytearray, memoryview)):
        return bytes(file)
    if isinstance(file, (str, os.PathLike)):
        return _bytes_at(os.fspath(file))
    return _bytes_in(file)


def path_of(file: Optional[File]) -> Optional[str]:
    """The path by which a file is given, or the name of an open one; None where its bytes are given."""
    if isinstance(file, (str, os.PathLike)):
        # A path that isn't text is shown as far as it is.
        return os.fsencode(file).decode("utf-8", "replace")
    name = getattr(file, "name", None)
    return name if isinstance(name, str) else None


def write_to(path: Optional[Path], data: bytes) -> bytes:
    """The data, written to a file as well where a path is given. Raises OSError, and TypeError for what is no path."""
    if path is not None:
        with open(checked_path(path), "wb") as file:
            file.write(data)
    return data


def checked_path(path: Any) -> Path:
    """A path. Raises TypeError for what isn't one, such as an open file or the number of one."""
    if not isinstance(path, (str, os.PathLike)):
        raise TypeError(f"{reprlib.repr(path)} isn't the path of a file to write: give a str or a pathlib.Path")
    return path


def checked_call(name: str, value: object) -> None:
    """Raises TypeError where an argument of this name, that is called later, can't be called, and isn't None."""
    if value is not None and not callable(value):
        raise TypeError(f"{name} is {value!r}, which can't be called")


def _bytes_at(path: str) -> bytes:
    try:
        with open(path, "rb") as opened:
            return opened.read(MOST_BYTES + 1)
    except OSError as why:
        # An error of reading, other than one of opening, doesn't say of which file it is.
        why.filename = path
        if "\n" in path:
            told = f"{why.strerror} (a str is taken for a path: give a file's contents as bytes)"
            raise OSError(why.errno, told, reprlib.repr(path)) from why
        raise
    except ValueError as why:
        # No file has such a path: one with a zero byte.
        raise OSError(errno.EINVAL, str(why), path) from None


def _bytes_in(file: Opened) -> bytes:
    """All that an open file has. One without a buffer, such as a pipe, gives it in parts."""
    if not callable(getattr(file, "read", None)):
        raise TypeError(f"{reprlib.repr(file)} isn't a file: give its path, its bytes, or the file opened by "
                        "open(path, 'rb')")
    parts: List[bytes] = []
    left = MOST_BYTES + 1
    while left > 0:
        part: Any = file.read(left)
        if part is None:
            raise BlockingIOError(errno.EAGAIN, "the file has nothing to read yet, and doesn't wait", path_of(file))
        if not isinstance(part, bytes):
            raise TypeError(f"{file!r} is opened as text: open it by open(path, 'rb')")
        if not part:
            break
        parts.append(part)
        left -= len(part)
    return b"".join(parts)
