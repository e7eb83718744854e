"""A receiver's command as a process: started, read, restarted after growing pauses, stopped."""

import fcntl
import os
import signal
import subprocess
from contextlib import suppress
from typing import Any, Callable, Dict, List, Optional, Sequence

from ..rows.decoders import how_ended
from ..rows.items import cause

# Linux: a pipe of a megabyte holds a second of any signal while the disk is busy.
F_SETPIPE_SZ, PIPE_BYTES = 1031, 1 << 20
MOST = 1 << 22  # bytes that are read at once, so that one receiver cannot hold up the others
FIRST_PAUSE, LONGEST_PAUSE, GOOD_RUN = 1.0, 60.0, 60.0
# The status of a command that writes to a program that has left, also by way of a shell.
BROKEN_PIPE = (-signal.SIGPIPE, 128 + signal.SIGPIPE)
GRACE = 2.0  # between SIGTERM and SIGKILL


class Process:
    """A command in a process group of its own; its output goes through another program, if one is named. `read` gives what is there, and
    None after the end of the output; `ended` says how the command ended, or None while it or the program runs.
    """

    def __init__(self, words: Sequence[str], through: Sequence[str] = ()):
        self._it = self._last = _started(words, subprocess.DEVNULL)
        self._all = {self._it}
        if through:
            assert self._it.stdout
            try:
                self._last = _started(through, self._it.stdout)
            except OSError:
                self.kill()
                raise
            self._all.add(self._last)
            self._it.stdout.close()
        assert self._last.stdout
        self._out = self._last.stdout
        self._said: Dict[int, bytes] = {}
        os.set_blocking(self._out.fileno(), False)

    def read(self) -> Optional[bytes]:
        self._listen()
        parts: List[bytes] = []
        while sum(map(len, parts)) < MOST:
            part = self._out.read(1 << 18)
            if part is None:
                break
            if not part:
                return b"".join(parts) if parts else None
            parts.append(part)
        return b"".join(parts)

    def _listen(self) -> None:
        """Keeps the end of what they say on standard error."""
        for process in self._all:
            assert process.stderr
            for _ in range(16):
                part = process.stderr.read(1 << 14)
                if not part:
                    break
                self._said[process.pid] = (self._said.get(process.pid, b"") + part)[-400:]

    def ended(self) -> Optional[str]:
        """The program may end the command by leaving: then it is the program that ended."""
        if any(process.poll() is None for process in self._all):
            return None
        first = self._last if self._it.returncode in BROKEN_PIPE and self._last.returncode else self._it
        return how_ended(first.returncode, self._said.get(first.pid, b""))

    def terminate(self) -> None:
        """The program goes on until its input ends."""
        self._signal(self._it, signal.SIGTERM)

    def kill(self) -> None:
        for process in self._all:
            self._signal(process, signal.SIGKILL)

    @staticmethod
    def _signal(process: "subprocess.Popen[bytes]", number: int) -> None:
        """To the whole group, also if the process that began it has ended."""
        with suppress(ProcessLookupError, PermissionError):
            os.killpg(process.pid, number)

    def close(self) -> None:
        for process in self._all:
            for stream in (process.stdout, process.stderr):
                assert stream
                stream.close()
            process.poll()


def _started(words: Sequence[str], given: Any) -> "subprocess.Popen[bytes]":
    pipe = subprocess.PIPE
    process = subprocess.Popen(
        list(words), stdin=given, stdout=pipe, stderr=pipe, start_new_session=True, bufsize=0
    )
    assert process.stdout and process.stderr
    os.set_blocking(process.stderr.fileno(), False)
    with suppress(OSError):  # over the limit of a user, or another system
        fcntl.fcntl(process.stdout.fileno(), F_SETPIPE_SZ, PIPE_BYTES)
    return process


# By the words of a command, and those of a program that its output goes through.
Launch = Callable[[Sequence[str], Sequence[str]], Process]


class Keeper:
    """Keeps a command running. Times are of the monotonic clock."""

    def __init__(
        self, words: Sequence[str], patience: float, launch: Launch, now: float, through: Sequence[str] = ()
    ):
        self._words, self._through, self.patience, self._launch = words, through, patience, launch
        self._it: Optional[Process] = None
        self._pause, self._again = FIRST_PAUSE, now
        self._began = self.last_byte = now
        self._killing: Optional[float] = None
        self._stopped = False
        self.starts = 0
        self.reason = ""  # how the last run ended, once it has

    @property
    def is_running(self) -> bool:
        return self._it is not None

    @property
    def is_stopping(self) -> bool:
        return self._killing is not None

    def read(self, now: float) -> Optional[bytes]:
        """The bytes since the last call; None once, when a run has ended. It starts the command if it is time."""
        if self._it is None:
            if not self._stopped and now >= self._again:
                return self._start(now)
            return b""
        if self._killing is not None and now - self._killing > GRACE:
            self._it.kill()  # also if it goes on giving bytes
        data = self._it.read()
        if data:
            self.last_byte = now
            return data
        return self._look(now, data is None)

    def _start(self, now: float) -> Optional[bytes]:
        self.starts += 1
        self._began, self._killing, self.reason = now, None, ""
        try:
            self._it = self._launch(self._words, self._through)
        except OSError as error:
            self._end(now, f"cannot be started: {cause(error)}")
            return None
        return b""

    def _look(self, now: float, no_output: bool) -> Optional[bytes]:
        """Whether a run without bytes has ended, hangs, or is to be killed. It may go on without its output."""
        assert self._it is not None
        ended = self._it.ended()
        if ended is not None:
            last = self._it.read()
            if last:
                return last
            self._it.kill()  # others of its group may be left, such as programs of a pipeline
            self._end(now, self.reason if self._killing is not None and self.reason else ended)
            return None
        if self._killing is not None:
            return b""
        if no_output and now - max(self.last_byte, self._began) > min(GRACE, self.patience):
            self.stop_run(now, "closed its output")
        elif now - max(self.last_byte, self._began) > self.patience:
            self.stop_run(now, f"gave no byte for {self.patience:g} s")
        return b""

    def stop_run(self, now: float, reason: str) -> None:
        """Ends the run, which is followed by another one."""
        if self._it and self._killing is None:
            self._killing, self.reason = now, reason
            self._it.terminate()

    def _end(self, now: float, reason: str) -> None:
        if self._it:
            self._it.close()
        self._it, self.reason = None, reason
        if now - self._began >= GOOD_RUN and self.last_byte >= self._began:
            self._pause = FIRST_PAUSE
        self._again = now + self._pause
        self._pause = min(2 * self._pause, LONGEST_PAUSE)

    def stop(self, now: float, reason: str) -> None:
        """For good."""
        self._stopped = True
        self.stop_run(now, reason)

    def kill(self) -> None:
        if self._it:
            self._it.kill()
            self._it.close()
            self._it = None
