"""Processes that compute for this one, so that what they do can be stopped, and be given up when its time is over. Such
a process is this module, run as a program."""
import os
import pickle
import select
import signal
import struct
import subprocess
import sys
import time
from importlib import import_module
from typing import IO, Any, Callable, Optional, Tuple

# How often a waiting caller is told of it.
TICK = 0.25
LENGTH = struct.Struct("<Q")
# Set in a helper: a helper's own helpers are stopped together with it.
_is_helper = False


class Lost(Exception):
    """A helper ended without an answer, as one does that is killed."""


class Late(Exception):
    """A helper didn't answer in time."""


class Helper:
    """A process that calls functions, one after the other. To be closed, which also stops what it does."""

    def __init__(self) -> None:
        self._process: Optional["subprocess.Popen[bytes]"] = None
        self._leads, self._is_stopped = not _is_helper, False

    def call(self, function: Callable[..., Any], *given: Any, seconds: float = float("inf"),
             tick: Callable[[], None] = lambda: None) -> Any:
        """What a function of a module answers, or raises. Raises Lost and Late as well; then a new process is started
        for the next call."""
        process = self._started()
        if self._is_stopped:
            self.close()
            raise Lost
        assert process.stdin and process.stdout
        ends, waiting = time.monotonic() + seconds, select.poll()
        waiting.register(process.stdout, select.POLLIN)
        try:
            _send(process.stdin, (function.__module__, function.__qualname__, given))
            while not waiting.poll(TICK * 1000):
                tick()
                if time.monotonic() > ends:
                    raise Late
            is_answer, value = _received(process.stdout)
        except (OSError, EOFError):
            self.close()
            raise Lost from None
        except BaseException:
            self.close()
            raise
        if is_answer:
            return value
        raise value

    def _started(self) -> "subprocess.Popen[bytes]":
        if self._process is None:
            # In a session of its own it isn't stopped by the keyboard, but by this process, or once this one is gone.
            path = os.pathsep.join(filter(None, sys.path))
            self._process = subprocess.Popen([sys.executable, "-m", "pbaudit.helpers"], stdin=subprocess.PIPE,
                                             stdout=subprocess.PIPE, stderr=subprocess.DEVNULL,
                                             start_new_session=self._leads, env={**os.environ, "PYTHONPATH": path})
        return self._process

    def stop(self) -> None:
        """Stops what the process does, so that a call of another thread ends, and has every later call fail as Lost."""
        self._is_stopped = True
        self._kill()

    def _kill(self) -> None:
        process = self._process
        if process is not None and self._leads:
            _kill_group(process.pid)

    def close(self) -> None:
        """Ends the process, and its own helpers."""
        self._kill()
        process, self._process = self._process, None
        if process is None:
            return
        process.kill()
        for stream in (process.stdin, process.stdout):
            _close(stream)
        process.wait()

    def __enter__(self) -> "Helper":
        return self

    def __exit__(self, *_: object) -> None:
        self.close()


def _kill_group(leader: int) -> None:
    try:
        os.killpg(leader, signal.SIGKILL)
    except OSError:
        # It is gone already.
        pass


def _close(stream: Optional[IO[bytes]]) -> None:
    try:
        if stream:
            stream.close()
    except OSError:
        # What was on its way to the process is of no use any more.
        pass


def _send(stream: IO[bytes], value: Any) -> None:
    data = pickle.dumps(value, pickle.HIGHEST_PROTOCOL)
    stream.write(LENGTH.pack(len(data)))
    stream.write(data)
    stream.flush()


def _received(stream: IO[bytes]) -> Any:
    """What was sent. Raises EOFError where no more comes."""
    head = stream.read(LENGTH.size)
    if len(head) < LENGTH.size:
        raise EOFError
    data = stream.read(LENGTH.unpack(head)[0])
    return pickle.loads(data)


def _answer(module: str, name: str, given: Tuple[Any, ...]) -> Tuple[bool, Any]:
    """Whether a function answered, and what it answered or raised."""
    try:
        return True, getattr(import_module(module), name)(*given)
    except Exception as error:  # Whatever it is, the caller gets it.
        return False, error


def main() -> None:
    """Answers calls from standard input until that ends."""
    came, goes = sys.stdin.buffer, os.fdopen(os.dup(1), "wb")
    # What a function prints has no place in the answers.
    os.dup2(2, 1)
    # This module as others import it, which isn't this one as a program.
    import_module("pbaudit.helpers")._is_helper = True  # type: ignore[attr-defined]
    while True:
        try:
            call = _received(came)
        except EOFError:
            return
        _send(goes, _answer(*call))


if __name__ == "__main__":
    main()
