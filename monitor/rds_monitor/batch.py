"""A folder of recordings into a folder of listings, by GNU parallel: the command `batch`.

The recordings get numbers as names in a folder of this batch, so that whatever is in their own names reaches no shell. A listing is made
there, and renamed into its place once it is whole. While a batch is at work it holds a lock, which its jobs inherit."""

import argparse
import fcntl
import os
import re
import shlex
import shutil
import signal
import subprocess
import sys
import tempfile
from typing import IO, Iterator, List, NamedTuple, Optional, Tuple

from . import ITSELF
from .rows.decoders import rds_program
from .rows.items import Fault, Misuse
from .rows.listing import CUT

LOCK, WORK = ".batch.lock", ".batch-"
COMPLETE = re.compile(rb"^total,complete,([0-9]+),", re.MULTILINE)
LAST = re.compile(rb"^total,losses,[0-9]+,-,-,-,-,-\n\Z", re.MULTILINE)
OPTIONS = {"--suffix", "--options", "--demod", "--shared", "--wait"}
LEAST = 2  # complete groups that show a station

DESCRIPTION = """\
Decodes each recording of a folder into a listing in another folder, one job per processor, by GNU parallel.

Recordings that already have a listing are left out. A listing appears when it is complete. Standard error names each
recording that failed or has no station (fewer than two complete groups); then the exit status is 1. The others are
decoded all the same.

Options after the folders go to GNU parallel, such as --jobs N. With --sshlogin, other machines take part: they need
rds, and rsync unless --shared tells that they see the same folders. Files that such an option names need a full
path."""
EXAMPLES = """\
examples:
  rds-monitor batch recordings listings
  rds-monitor batch --suffix .hex --options '--hex --burst 5' recordings listings
  rds-monitor batch --suffix .wav --demod '' recordings listings
  rds-monitor batch recordings listings --sshlogin anna,bert"""


class Job(NamedTuple):
    path: str
    listing: str


def options_batch(parser: argparse.ArgumentParser) -> None:
    parser.description = DESCRIPTION
    parser.epilog = EXAMPLES
    text = "names of recordings end in TEXT (%(default)s)"
    parser.add_argument("--suffix", default=".bin", metavar="TEXT", help=text)
    parser.add_argument("--options", default="", metavar="WORDS", help="options of rds list")
    text = "the recordings are signals: demodulate them, with these options of demod"
    parser.add_argument("--demod", metavar="WORDS", help=text)
    parser.add_argument("--shared", action="store_true", help="other machines see the same folders")
    parser.add_argument("--wait", action="store_true", help="wait while another batch is at work in LISTINGS")
    parser.add_argument("recordings", metavar="RECORDINGS")
    parser.add_argument("listings", metavar="LISTINGS")
    text = "options of GNU parallel"
    parser.add_argument("parallel", nargs=argparse.REMAINDER, metavar="OPTION", help=text)


def locked(folder: str, wait: bool) -> IO[bytes]:
    """The lock of a folder of listings. It goes when the last process that has it ends, however it ends."""
    file = open(os.path.join(folder, LOCK), "ab")
    try:
        fcntl.flock(file, fcntl.LOCK_EX | (0 if wait else fcntl.LOCK_NB))
    except BlockingIOError:
        raise Fault(f"another batch is running in {folder!r} (--wait waits for it)") from None
    return file


def clean(folder: str) -> None:
    """Removes what batches left that were killed."""
    for entry in os.scandir(folder):
        if entry.name.startswith(WORK) and entry.is_dir():
            shutil.rmtree(entry.path, ignore_errors=True)


def recordings_of(folder: str, listings: str, suffix: str) -> List[Job]:
    """The recordings of a folder, in order of name."""
    found = []
    for entry in sorted(os.scandir(folder), key=lambda entry: entry.name):
        stem = entry.name[: len(entry.name) - len(suffix)]
        if entry.name.endswith(suffix) and stem and entry.is_file():
            found.append(Job(entry.path, os.path.join(listings, stem + ".csv")))
    return found


def told(path: str) -> str:
    """A name on one line of a terminal."""
    return path if path.isprintable() else repr(path)


def job_text(arguments: argparse.Namespace, program: str) -> str:
    """The command of a job, by its number: a listing, and a line with the number, the status and what was said."""
    options = " ".join(map(shlex.quote, shlex.split(arguments.options)))
    decode = f"{shlex.quote(program)} list --workers 1 {options}"
    if arguments.demod is None:
        work = f"{decode} < {{}}.in > {{}}.csv"
    else:
        demod = " ".join(map(shlex.quote, shlex.split(arguments.demod)))
        work = (
            f"{shlex.join(ITSELF)} demod {demod} {{}}.in > {{}}.bits && {decode} < {{}}.bits > {{}}.csv; s=$?; "
            "rm -f {}.bits; exit $s"
        )
    # rds says what is wrong in its first line, and the demodulator in its last one.
    line = "head" if arguments.demod is None else "tail"
    said = f'"$(printf %s "$said" | {line} -n 1)"'
    return f"said=$( ( {work} ) 2>&1 ); s=$?; printf '%s %s %s\\n' {{}} $s {said}; exit $s"


def copies(arguments: argparse.Namespace) -> bool:
    """Whether recordings are copied to other machines."""
    names = re.compile(r"-S|--ssh-?login|--slf")
    return not arguments.shared and any(map(names.match, arguments.parallel))


def run_jobs(
    arguments: argparse.Namespace, work: str, count: int, lock: IO[bytes]
) -> Iterator[Tuple[int, int, str]]:
    """The number, the status and the words of each job as it ends."""
    words = ["parallel", "--will-cite", "--workdir", "..." if copies(arguments) else "."]
    if copies(arguments):
        words += ["--transferfile", "{}.in", "--return", "{}.csv", "--cleanup"]
    words += [*arguments.parallel, job_text(arguments, rds_program())]
    signal.signal(signal.SIGPIPE, signal.SIG_IGN)
    # rsync follows the links to the recordings.
    environment = {**os.environ, "PARALLEL_RSYNC_OPTS": "-rLDzR", "PARALLEL_SHELL": "/bin/sh"}
    pipe, lent = subprocess.PIPE, (lock.fileno(),)
    process = subprocess.Popen(words, cwd=work, env=environment, stdin=pipe, stdout=pipe, pass_fds=lent)
    assert process.stdin and process.stdout
    try:
        process.stdin.write("".join(f"{number}\n" for number in range(count)).encode())
        process.stdin.close()
    except BrokenPipeError:
        pass  # it ended at once: the recordings are named as not decoded
    for line in process.stdout:
        match = re.fullmatch(rb"([0-9]+) ([0-9]+) (.*)\n", line)
        if match:
            yield int(match[1]), int(match[2]), match[3].decode("utf-8", "backslashreplace")
    process.wait()


def end_of(made: str) -> bytes:
    """The end of a listing, with its totals."""
    with open(made, "rb") as file:
        file.seek(max(0, os.path.getsize(made) - 1024))
        return file.read()


def fault_of(made: str, status: int, said: str) -> Optional[str]:
    """Why a job made no whole listing."""
    if status:
        return f"failed: {said or f'status {status}'}"
    try:
        return None if LAST.search(end_of(made)) else f"failed: {CUT}"
    except FileNotFoundError:
        return "failed: its listing did not come back"


def has_station(made: str) -> bool:
    match = COMPLETE.search(end_of(made))
    return match is not None and int(match[1]) >= LEAST


class BatchRun:
    """What became of the recordings so far."""

    def __init__(self, recordings: List[Job], work: str):
        self._recordings, self._work = recordings, work
        self._waiting = set(range(len(recordings)))
        self._shows = sys.stderr.isatty()
        self.is_bad = False

    def take(self, number: int, status: int, said: str) -> None:
        """Puts a listing that is whole into its place, and names a recording that failed or has no station."""
        if number not in self._waiting:
            return
        self._waiting.discard(number)
        recording, made = self._recordings[number], os.path.join(self._work, f"{number}.csv")
        fault = fault_of(made, status, said)
        if fault:
            self.name(recording, fault)
        else:
            empty = not has_station(made)
            os.replace(made, recording.listing)
            if empty:
                self.name(recording, "no station")
        if self._shows:
            done = len(self._recordings) - len(self._waiting)
            print(f"\r{done} of {len(self._recordings)}\x1b[K", end="", file=sys.stderr, flush=True)

    def name(self, recording: Job, fault: str) -> None:
        self.is_bad = True
        clear = "\r\x1b[K" if self._shows else ""
        # In one write, since GNU parallel writes to the same stream.
        sys.stderr.write(f"{clear}rds-monitor batch: {told(recording.path)}: {told(fault)}\n")
        sys.stderr.flush()

    def finish(self) -> None:
        if self._shows:
            print("\r\x1b[K", end="", file=sys.stderr)
        for number in sorted(self._waiting):
            self.name(self._recordings[number], "was not decoded")


def run_batch(arguments: argparse.Namespace) -> int:
    if not arguments.suffix or "/" in arguments.suffix:
        raise Misuse("--suffix is not empty and has no / in it")
    for name in ("options", "demod"):
        try:
            shlex.split(getattr(arguments, name) or "")
        except ValueError as error:
            raise Misuse(f"--{name}: {error}") from None
    for word in arguments.parallel:
        if word.partition("=")[0] in OPTIONS:
            raise Misuse(f"{word}: put it before RECORDINGS; options after the folders go to GNU parallel")
    if not shutil.which("parallel"):
        raise Fault("there is no GNU parallel: install Debian's package parallel")
    if copies(arguments) and not shutil.which("rsync"):
        cure = "install Debian's package rsync, or say --shared"
        raise Fault(f"there is no rsync, which copies recordings: {cure}")
    if not os.path.isdir(arguments.recordings):
        raise Fault(f"there is no folder {arguments.recordings!r}")
    os.makedirs(arguments.listings, exist_ok=True)
    with locked(arguments.listings, arguments.wait) as lock:
        clean(arguments.listings)
        every = recordings_of(arguments.recordings, arguments.listings, arguments.suffix)
        recordings = [job for job in every if not os.path.exists(job.listing)]
        work = tempfile.mkdtemp(prefix=WORK, dir=arguments.listings)
        try:
            for number, recording in enumerate(recordings):
                os.symlink(os.path.abspath(recording.path), os.path.join(work, f"{number}.in"))
            batch = BatchRun(recordings, work)
            for job in every:
                if job not in recordings and not has_station(job.listing):
                    batch.name(job, "no station")
            if recordings:
                for number, status, said in run_jobs(arguments, work, len(recordings), lock):
                    batch.take(number, status, said)
            batch.finish()
        finally:
            shutil.rmtree(work, ignore_errors=True)
    return int(batch.is_bad)
