"""A receiver of the sample, which tells what rights it has: receiver.py NAME

It runs in rds-monitor-watch.service, as the user and within the bounds that systemd gives it.
"""

from __future__ import annotations

import ctypes
import errno
import grp
import json
import mmap
import os
import pwd
import resource
import socket
import sys
import time
from pathlib import Path
from typing import Any, Callable

STATE = Path("/var/lib/rds-monitor")
CLONE_NEWUSER, NO_RANDOMIZE = 0x10000000, 0x0040000
LIBC = ctypes.CDLL(None, use_errno=True)


def answer(act: Callable[[], Any]) -> str:
    """The name of the error, or "done"."""
    try:
        act()
    except OSError as error:
        return errno.errorcode[error.errno or 0]
    return "done"


def called(name: str, *words: int) -> None:
    if getattr(LIBC, name)(*words) < 0:
        raise OSError(ctypes.get_errno(), name)


def mapped() -> None:
    mmap.mmap(-1, 4096, prot=mmap.PROT_READ | mmap.PROT_WRITE | mmap.PROT_EXEC)


def own_program() -> None:
    """A file with the right to be run as its owner."""
    (STATE / "program").touch()
    (STATE / "program").chmod(0o4755)


def rights() -> dict[str, Any]:
    status = dict(line.split(":\t") for line in Path("/proc/self/status").read_text().splitlines())
    umask = os.umask(0)
    os.umask(umask)
    return {
        "user": pwd.getpwuid(os.getuid()).pw_name,
        "groups": sorted(grp.getgrgid(group).gr_name for group in {os.getgid(), *os.getgroups()}),
        "umask": f"{umask:03o}",
        "rights": {name: status[name] for name in ("CapBnd", "CapEff", "NoNewPrivs", "Seccomp")},
        "files": resource.getrlimit(resource.RLIMIT_NOFILE),
        "apart": {name: os.readlink(f"/proc/self/ns/{name}") for name in ("net", "uts", "mnt")},
        "seen": {
            path: os.path.exists(path) for path in ("/proc/1", "/proc/sys", "/tmp/of_others", "/home/open")
        },
    }


def answers() -> dict[str, str]:
    asked: dict[str, Callable[[], Any]] = {
        f"write {path}": Path(path, "new").touch
        for path in ("/etc/open", "/srv/open", "/tmp", "/var/tmp", str(STATE))
    }
    for path in ("/dev/null", "/dev/usb", "/dev/memory", "/dev/disk"):
        asked[f"open {path}"] = lambda path=path: os.close(os.open(path, os.O_RDWR))  # type: ignore[misc]
    for name in ("AF_UNIX", "AF_NETLINK", "AF_INET", "AF_PACKET"):
        asked[name] = lambda name=name: socket.socket(getattr(socket, name), socket.SOCK_RAW).close()  # type: ignore[misc]
    asked["another priority"] = lambda: os.setpriority(os.PRIO_PROCESS, 0, 5)
    asked["another namespace"] = lambda: called("unshare", CLONE_NEWUSER)
    asked["another personality"] = lambda: called("personality", NO_RANDOMIZE)
    asked["memory to write and run"] = mapped
    asked["a program of its owner"] = own_program
    return {name: answer(act) for name, act in asked.items()}


def main() -> None:
    name = sys.argv[1]
    path = STATE / f"{name}.json"
    path.with_suffix(".new").write_text(json.dumps({**rights(), "answers": answers()}))
    path.with_suffix(".new").rename(path)
    sample = Path("/given/station.bin").read_bytes()
    # a little slower than a station
    for at in range(0, len(sample), 14):
        os.write(1, sample[at : at + 14])
        time.sleep(0.1)


if __name__ == "__main__":
    main()
