"""A folder of recordings into a folder of listings."""

from __future__ import annotations

import fcntl
import getpass
import json
import os
import shutil
import signal
import socket
import subprocess
import sys
import time
from pathlib import Path
from typing import Any, Iterator, List
from unittest import mock

import numpy
import pytest
from conftest import COMMAND, PROGRAM, STATION, TOP, encode, monitor, ran, rds
from made import run
from modulator import iq, mpx, stored, wav, words

from rds_monitor.batch import WORK, BatchRun, Job

pytestmark = pytest.mark.skipif(not shutil.which("parallel"), reason="GNU parallel is not installed")

NOISE = numpy.random.default_rng(1).bytes(20000)
NAMES = [
    "a.bin",
    "it's.bin",
    'a "b" $(c) `d`; e & f.bin',
    "line\nfeed.bin",
    "-n.bin",
    "{} {#} ü.bin",
    " .bin",
]


@pytest.fixture
def folders(tmp_path: Path) -> "tuple[Path, Path]":
    (tmp_path / "recordings").mkdir()
    return tmp_path / "recordings", tmp_path / "listings"


def fill(folder: Path, names: List[str] = NAMES) -> None:
    for name in names:
        (folder / name).write_bytes(STATION.read_bytes())


def listings(folder: Path) -> "dict[str, bytes]":
    return {path.name: path.read_bytes() for path in folder.iterdir() if path.suffix == ".csv"}


def left_over(folder: Path) -> List[str]:
    return [path.name for path in folder.iterdir() if path.name.startswith(WORK) and path.is_dir()]


def test_listings_of_whatever_name(folders: Any, station_listing: bytes) -> None:
    fill(folders[0])
    (folders[0] / "not one.txt").write_bytes(b"x")
    (folders[0] / "a folder.bin").mkdir()
    done = monitor("batch", *folders)
    assert (done.returncode, done.stdout, done.stderr) == (0, b"", b"")
    assert listings(folders[1]) == {name[:-4] + ".csv": station_listing for name in NAMES}
    assert not left_over(folders[1])
    # Those that are there are left as they are, and so is a folder, and one to which a link leads.
    (folders[1] / "mine").mkdir()
    (folders[1] / f"{WORK}link").symlink_to(folders[0])
    (folders[1] / "a.csv").write_bytes(b"mine\n" + station_listing[-400:])
    (folders[1] / "-n.csv").unlink()
    assert monitor("batch", *folders).returncode == 0
    assert listings(folders[1])["-n.csv"] == station_listing
    assert listings(folders[1])["a.csv"].startswith(b"mine\n") and (folders[1] / "mine").is_dir()


def test_no_station_is_named_each_time(folders: Any) -> None:
    fill(folders[0], ["a.bin"])
    (folders[0] / "noise\x1b[31m.bin").write_bytes(NOISE)
    for _ in range(2):
        done = monitor("batch", *folders)
        assert done.returncode == 1 and done.stderr.count(b"\n") == 1
        assert b"noise\\x1b[31m.bin': no station" in done.stderr
    assert len(listings(folders[1])) == 2


def test_two_complete_groups_make_a_station(folders: Any) -> None:
    # The first block of the first group is read only to acquire.
    for count in (1, 2):
        (folders[0] / f"{count}.bin").write_bytes(encode([(0xD393, 0x0548, 0xE0CD, 0x5041)] * (count + 1)))
    done = monitor("batch", *folders)
    assert done.returncode == 1 and done.stderr.count(b"\n") == 1 and b"1.bin: no station" in done.stderr
    assert sorted(listings(folders[1])) == ["1.csv", "2.csv"]


def test_what_failed_is_named_and_the_others_are_decoded(folders: Any, station_listing: bytes) -> None:
    (folders[0] / "bad.hex [1]").write_bytes(b"xyz")
    (folders[0] / "good.hex [1]").write_text(STATION.read_bytes().hex())
    done = monitor("batch", "--suffix", ".hex [1]", "--options", "--hex --burst 2", *folders)
    assert done.returncode == 1 and b"bad.hex [1]: failed: refused 11 HexText" in done.stderr
    assert listings(folders[1]) == {"good.csv": station_listing}


@pytest.mark.parametrize(
    "words_,status,said",
    [
        (("none such", "listings"), 1, b"there is no folder"),
        (("x",), 2, b"usage"),
        (("--suffix", "/", ".", "listings"), 2, b"suffix"),
        (("--options", "'", ".", "listings"), 2, b"--options: No closing quotation"),
        ((".", "listings", "--jobs", "2", "--suffix=.hex"), 2, b"--suffix=.hex: put it before RECORDINGS"),
    ],
)
def test_folders_that_are_not_there(words_: Any, status: int, said: bytes, tmp_path: Path) -> None:
    done = monitor("batch", *words_, cwd=tmp_path)
    assert done.returncode == status and said in done.stderr


def test_signals_are_demodulated(folders: Any) -> None:
    groups = words(8, 24)
    (folders[0] / "mpx.wav").write_bytes(wav(stored(mpx(encode(groups), 171000), "s16"), "s16", 171000))
    (folders[0] / "cut.wav").write_bytes(b"RIFF")
    # As it is installed: no path of the environment has the package.
    known = {key: value for key, value in os.environ.items() if key != "PYTHONPATH"}
    command = [sys.executable, TOP / "monitor" / "rds-monitor", "batch", "--suffix", ".wav", "--demod", ""]
    done = ran([*command, *folders], env=known)
    assert done.returncode == 1
    assert "cut.wav: failed: rds-monitor demod: the WAV file ends within its header" in done.stderr
    assert listings(folders[1])["mpx.csv"].count(b"\ngroup,") >= 23


def test_recordings_of_sigmf(folders: Any) -> None:
    """The description beside a recording is found, though the jobs know the recording by a number."""
    data = stored(iq(mpx(encode(words(8, 24)), 256000), 256000, cnr=40), "s16")
    (folders[0] / "it.sigmf-data").write_bytes(data)
    told = {"global": {"core:datatype": "ci16_le", "core:sample_rate": 256000}}
    (folders[0] / "it.sigmf-meta").write_text(json.dumps(told))
    done = monitor("batch", "--suffix", ".sigmf-data", "--demod", "", *folders)
    assert done.returncode == 0, done.stderr
    assert listings(folders[1])["it.csv"].count(b"\ngroup,") >= 22


# ---- jobs that fail, and how a listing comes into its place


def program(folder: Path, text: str) -> str:
    """A program in the place of rds, in sh."""
    path = folder / "program"
    path.write_text(f"#!/bin/sh\n{text}\n")
    path.chmod(0o755)
    return str(path)


def batch_by(program_: str, *words_: Any) -> "subprocess.CompletedProcess[bytes]":
    return monitor("batch", *words_, env={**os.environ, "RDS": program_})


def test_a_listing_is_moved_into_its_place(
    folders: Any, monkeypatch: pytest.MonkeyPatch, station_listing: bytes
) -> None:
    """From the same file system, when it is whole: who looks at the folder meanwhile never sees a part of one."""
    fill(folders[0], NAMES[:2])
    moved, replace = [], os.replace

    def seen(made: str, listing: str) -> None:
        moved.append((Path(made).parent.parent, Path(made).read_bytes(), os.path.exists(listing)))
        replace(made, listing)

    monkeypatch.setenv("RDS", PROGRAM)
    monkeypatch.setattr(os, "replace", seen)
    assert run("batch", *folders).status == 0
    assert moved == [(folders[1], station_listing, False)] * 2
    assert set(listings(folders[1]).values()) == {station_listing}


def test_progress_is_shown_at_once(tmp_path: Path, monkeypatch: pytest.MonkeyPatch) -> None:
    """What was written to a terminal is seen when it is flushed."""
    seen: List[str] = []
    terminal = mock.Mock(isatty=lambda: True, write=seen.append, flush=lambda: seen.append("|"))
    monkeypatch.setattr(sys, "stderr", terminal)
    BatchRun([Job("a", "b")] * 3, str(tmp_path)).take(1, 1, "out of memory")
    assert "".join(seen).endswith("\r1 of 3\x1b[K|")


@pytest.mark.parametrize(
    "text,said",
    [
        (f"'{PROGRAM}' \"$@\" | head -c 5000", b"a.bin: failed: the listing does not end in its totals"),
        (f"'{PROGRAM}' \"$@\"; rm ./*.csv", b"a.bin: failed: its listing did not come back"),
        ("exit 3", b"a.bin: failed: status 3"),
        (
            "echo 'refused 8 OutOfMemory' >&2; echo more >&2; exit 1",
            b"a.bin: failed: refused 8 OutOfMemory\n",
        ),
    ],
)
def test_what_is_no_listing_does_not_come_into_its_place(
    text: str, said: bytes, folders: Any, tmp_path: Path
) -> None:
    fill(folders[0], ["a.bin"])
    done = batch_by(program(tmp_path, text), *folders)
    assert done.returncode == 1 and said in done.stderr
    assert listings(folders[1]) == {} and not left_over(folders[1])


def test_what_was_not_decoded_is_named(folders: Any, tmp_path: Path) -> None:
    fill(folders[0], ["a.bin", "b.bin", "c.bin"])
    done = batch_by(program(tmp_path, "exit 1"), *folders, "--jobs", "1", "--halt", "now,fail=1")
    lines = [line for line in done.stderr.splitlines() if line.startswith(b"rds-monitor batch: ")]
    named = [line.split(b"/")[-1] for line in lines]
    assert done.returncode == 1
    assert named == [b"a.bin: failed: status 1", b"b.bin: was not decoded", b"c.bin: was not decoded"]


# ---- two at once, and killed ones


class SlowRds:
    """A program that stops within its listing until it may go on, or its folder is gone."""

    def __init__(self, folder: Path):
        self.path, self._go = folder / "slow rds", folder / "go"
        self.path.write_text(
            f"""#!/bin/sh
'{PROGRAM}' "$@" > "$0.$$" || exit
head -c 5000 "$0.$$"
while [ -e "$0" ] && [ ! -e '{self._go}' ]; do sleep 0.1; done
tail -c +5001 "$0.$$"
rm "$0.$$"
"""
        )
        self.path.chmod(0o755)

    def go_on(self) -> None:
        self._go.touch()


def started(folders: Any, program: Any, *options: str) -> "subprocess.Popen[bytes]":
    words_, known = [*COMMAND, "batch", *options, *map(str, folders)], {**os.environ, "RDS": str(program)}
    return subprocess.Popen(words_, stderr=subprocess.PIPE, env=known, start_new_session=True)


def wait_for(condition: Any) -> None:
    end = time.monotonic() + 600
    while not condition():
        assert time.monotonic() < end
        time.sleep(0.02)


def is_locked(folder: Path) -> bool:
    try:
        with open(folder / ".batch.lock", "rb") as file:
            fcntl.flock(file, fcntl.LOCK_EX | fcntl.LOCK_NB)
    except BlockingIOError:
        return True
    except FileNotFoundError:
        pass
    return False


def test_two_at_once(folders: Any, tmp_path: Path, station_listing: bytes) -> None:
    fill(folders[0], NAMES[:3])
    slow = SlowRds(tmp_path)
    first = started(folders, slow.path)
    wait_for(lambda: is_locked(folders[1]))
    refused = monitor("batch", *folders)
    assert refused.returncode == 1 and b"another batch is running" in refused.stderr
    second = started(folders, PROGRAM, "--wait")
    slow.go_on()
    assert (first.wait(), second.wait()) == (0, 0)
    assert set(listings(folders[1]).values()) == {station_listing} and len(listings(folders[1])) == 3


@pytest.mark.parametrize("whole_session", [False, True])
def test_one_that_is_killed(
    whole_session: bool, folders: Any, tmp_path: Path, station_listing: bytes
) -> None:
    fill(folders[0])
    slow = SlowRds(tmp_path)
    first = started(folders, slow.path)
    wait_for(lambda: any(path.stat().st_size == 5000 for path in folders[1].glob(WORK + "*/*.csv")))
    (os.killpg if whole_session else os.kill)(first.pid, signal.SIGKILL)
    first.wait()
    # The jobs that were at work hold the lock until they end.
    assert whole_session or is_locked(folders[1])
    slow.go_on()
    assert set(listings(folders[1]).values()) <= {station_listing}
    assert monitor("batch", "--wait", *folders).returncode == 0
    assert listings(folders[1]) == {name[:-4] + ".csv": station_listing for name in NAMES}
    assert not left_over(folders[1])


def test_a_full_disk(folders: Any) -> None:
    """A file system of its own, of 64 KiB, where mounting is allowed."""
    fill(folders[0], ["a.bin", "b.bin"])
    folders[1].mkdir()
    mount = 'mount -t tmpfs -o size=64k none "$0"'
    inside = mount + ' && "$@"; s=$?; ls -A "$0" >&2; exit $s'
    words_ = [
        *"unshare --mount sh -c".split(),
        inside,
        str(folders[1]),
        *COMMAND,
        "batch",
        *map(str, folders),
    ]
    if subprocess.run([*words_[:4], mount, str(folders[1])], capture_output=True).returncode:
        pytest.skip("this machine cannot mount a file system")
    done = subprocess.run(words_, capture_output=True)
    assert done.returncode == 1
    assert b"a.bin: failed: " in done.stderr and b"b.bin: failed: " in done.stderr
    assert b".csv" not in done.stderr


# ---- other machines


def free_port() -> int:
    with socket.socket() as sock:
        sock.bind(("127.0.0.1", 0))
        return int(sock.getsockname()[1])


@pytest.fixture
def machines(tmp_path: Path) -> Iterator[List[str]]:
    """Two sshd on the loopback, with keys of their own, as words of --sshlogin."""
    sshd = shutil.which("sshd") or "/usr/sbin/sshd"
    if not os.path.exists(sshd) or not shutil.which("ssh"):
        pytest.skip("openssh is not installed")
    # sshd wants this empty folder, which Debian makes when the service starts. It stays, since another test may need it.
    if os.geteuid() == 0:
        Path("/run/sshd").mkdir(exist_ok=True)
    folder = tmp_path / "ssh"
    folder.mkdir(mode=0o700)
    for key in ("host", "user"):
        subprocess.run(["ssh-keygen", "-q", "-t", "ed25519", "-N", "", "-f", str(folder / key)], check=True)
    shutil.copy(folder / "user.pub", folder / "authorized")
    servers, logins = [], []
    for _ in range(2):
        port = free_port()
        # sshd drops connections at random if more than 10 are slow to begin, as on a machine that is loaded.
        options = f"ListenAddress=127.0.0.1 Port={port} HostKey={folder}/host AuthorizedKeysFile={folder}/authorized"
        options += " StrictModes=no UsePAM=no PidFile=none MaxStartups=100 PermitRootLogin=yes PasswordAuthentication=no"
        words_ = [sshd, "-D", "-e", "-f", "/dev/null", *(f"-o{option}" for option in options.split())]
        servers.append(subprocess.Popen(words_, stderr=subprocess.DEVNULL))
        logins.append(
            f"ssh -p {port} -i {folder}/user -o StrictHostKeyChecking=no -o UserKnownHostsFile=/dev/null "
            f"-o LogLevel=ERROR {getpass.getuser()}@127.0.0.1"
        )
    try:
        for login in logins:
            end = time.monotonic() + 60
            while subprocess.run([*login.split(), "true"], capture_output=True).returncode:
                if time.monotonic() > end:
                    pytest.skip("this machine cannot start sshd")
                time.sleep(0.1)
        yield logins
    finally:
        for server in servers:
            server.terminate()
            server.wait()


def test_a_missing_rsync_is_told_once(folders: Any, tmp_path: Path, monkeypatch: pytest.MonkeyPatch) -> None:
    fill(folders[0], NAMES[:2])
    for tool in ("parallel", "sh"):
        (tmp_path / tool).symlink_to(shutil.which(tool) or "")
    monkeypatch.setenv("PATH", str(tmp_path))
    done = run("batch", *folders, "--sshlogin", "anna")
    assert done.status == 1 and done.err.count("rsync") == 2 and done.err.count("\n") == 1, done.err
    assert not folders[1].exists()


@pytest.mark.parametrize("shared", [True, False])
def test_two_machines(shared: bool, machines: List[str], folders: Any, station_listing: bytes) -> None:
    if not shared and not shutil.which("rsync"):
        pytest.skip("rsync is not installed")
    names = NAMES if shared else NAMES[1:4:2]
    fill(folders[0], names)
    (folders[0] / "noise.bin").write_bytes(NOISE)
    words_ = [*(["--shared"] if shared else []), *map(str, folders), "--jobs", "2"]
    for login in machines:
        words_ += ["--sshlogin", login]
    done = monitor("batch", *words_)
    said = [line for line in done.stderr.splitlines() if line.startswith(b"rds-monitor")]
    assert done.returncode == 1 and len(said) == 1 and said[0].endswith(b"noise.bin: no station"), done.stderr
    found = listings(folders[1])
    assert found.pop("noise.csv") == rds("list", data=NOISE)
    assert found == {name[:-4] + ".csv": station_listing for name in names}
