"""rds-monitor's packages on a machine: a real systemd installs, starts, reloads, upgrades, kills, stops and removes the service.

system/boot.sh starts that machine, with the files of this one, and system/inside.py takes the steps. Here is what each has to do.
The scripts of the package are tried in any case, over programs that only note their words.
"""

from __future__ import annotations

import json
import os
import shutil
from pathlib import Path
from typing import Any

import pytest
from packages import Packages
from running import TOP, needs, run, wrote

# By the same worker as the tests of the packages.
pytestmark = pytest.mark.xdist_group("packages")
# What a machine has to allow, in a namespace of its own.
ABLE = """mount -t tmpfs tmpfs /mnt && mkdir /mnt/{a,b,c} && mount -t cgroup2 none /mnt/a &&
    mkdir /mnt/b/{a,b} && mount -t overlay -o lowerdir=/,upperdir=/mnt/b/a,workdir=/mnt/b/b overlay /mnt/c"""
NO_WRITING = {f"write {path}": "EROFS" for path in ("/etc/open", "/srv/open")}
OWN_FOLDERS = {f"write {path}": "done" for path in ("/tmp", "/var/tmp", "/var/lib/rds-monitor")}
DEVICES = {"open /dev/null": "done", "open /dev/memory": "EPERM", "open /dev/disk": "EPERM"}
SOCKETS = {"AF_UNIX": "done", "AF_NETLINK": "done", "AF_INET": "EAFNOSUPPORT", "AF_PACKET": "EAFNOSUPPORT"}
REFUSED = ["priority", "namespace", "personality"]
RECEIVER = {
    "user": "rds-monitor",
    "groups": ["plugdev", "rds-monitor"],
    "umask": "022",
    "rights": {"CapBnd": "0" * 16, "CapEff": "0" * 16, "NoNewPrivs": "1", "Seccomp": "2"},
    "files": [4096, 4096],
    # of the network, the machine's name, and mounts
    "apart": {"net": True, "uts": True, "mnt": True},
    # other processes, the kernel's settings, others' temporary files, homes
    "seen": {"/proc/1": False, "/proc/sys": False, "/tmp/of_others": False, "/home/open": False},
    "answers": {
        **NO_WRITING,
        **OWN_FOLDERS,
        **DEVICES,
        **SOCKETS,
        **{f"another {name}": "EPERM" for name in REFUSED},
        "memory to write and run": "EPERM",
        "a program of its owner": "EPERM",
    },
}
STEPS: dict[str, dict[str, Any]] = {
    "installed": {
        "status": 0,
        "user": ["/var/lib/rds-monitor", "/usr/sbin/nologin", "RDS monitor"],
        # off until it is enabled, and until there is a table
        "enabled": 1,
        "started without a table": {"status": 0, "ActiveState": "inactive", "ConditionResult": "no"},
    },
    "refused": {"status": 1, "MainPID": "0", "ExecMainPID": "0"},
    "started": {
        "status": 0,
        "state": "active",
        "receiver": RECEIVER,
        "heard by systemd": True,
        "modes": ["rds-monitor d755", "rds-monitor -644"],
    },
    "reloaded": {"status": 0, "beta": True, "same process": True},
    "upgraded": {"status": 0, "same process": True, "NeedDaemonReload": "no"},
    "killed": {"new": True, "NRestarts": "1"},
    "stopped": {
        "status": 0,
        "ActiveState": "inactive",
        "Result": "success",
        "ExecMainStatus": "0",
        "processes": 0,
        "last row": "total",
    },
    "enabled": {"enabled": 0, "by": True},
    "removed": {"before": "active", "status": 0, "state": "inactive", "processes": 0, "left": []},
}


@pytest.fixture(scope="session")
def told(packages: Packages, tmp_path_factory: Any) -> dict[str, Any]:
    """What the service did, by steps."""
    needs("systemctl", "systemd-sysusers", "unshare")
    apart = "unshare --mount --pid --fork --cgroup --uts --ipc --net --propagation private bash -c".split()
    if os.getuid() or run(*apart, ABLE).status:
        pytest.skip("this machine cannot run a systemd of its own: it allows no namespaces")
    folder = tmp_path_factory.mktemp("system")
    folder.chmod(0o755)
    for path in (*packages.installed, *(TOP / "tests/system").glob("*.py"), TOP / "examples/station.bin"):
        shutil.copy2(path, folder)
    ended = run(TOP / "tests/system/boot.sh", folder, "/usr/bin/python3", "/given/inside.py", timeout=600)
    text = (folder / "told").read_text() if (folder / "told").exists() else ""
    assert ended.status == 0 and text, (ended, (folder / "errors").read_text())
    return dict(json.loads(text))


@pytest.mark.parametrize("step", STEPS)
def test_service(told: dict[str, Any], step: str) -> None:
    found = dict(told[step])
    if step == "killed":
        # RestartSec, and the time of two processes
        assert 5 <= found.pop("pause") < 100
    if step == "started":
        # A kernel without USB knows no such devices, and then none is allowed.
        answer = found["receiver"]["answers"].pop("open /dev/usb")
        assert (answer != "EPERM") == found.pop("has_usb")
    assert found == STEPS[step]


def test_user_of_the_service(tmp_path: Path) -> None:
    """By systemd-sysusers on a root folder of its own."""
    needs("systemd-sysusers")
    (tmp_path / "etc").mkdir()
    wrote("systemd-sysusers", f"--root={tmp_path}", TOP / "packaging/rds-monitor.sysusers")
    users, groups = ((tmp_path / "etc" / name).read_text() for name in ("passwd", "group"))
    assert users.startswith("rds-monitor:x:") and users.endswith(
        ":RDS monitor:/var/lib/rds-monitor:/usr/sbin/nologin\n"
    )
    assert sorted(line.split(":")[0] for line in groups.splitlines()) == ["plugdev", "rds-monitor"]
    assert [line.split(":")[3] for line in groups.splitlines() if line.startswith("plugdev")] == [
        "rds-monitor"
    ]


# A script of the package with its word; the folder of systemd and the program that makes users, if they are there, and DPKG_ROOT; and
# what is called.
USERS, RELOAD = "systemd-sysusers rds-monitor.conf", "systemctl --system daemon-reload"
STOP = "deb-systemd-invoke stop rds-monitor-watch.service"
CALLS: list[tuple[str, str, str, list[str]]] = [
    ("postinst configure", "systemd systemd-sysusers", "", [USERS, RELOAD]),
    ("postinst configure", "systemd-sysusers", "", [USERS]),
    ("postinst configure", "systemd", "", [RELOAD]),
    ("postinst configure", "systemd systemd-sysusers", "/other", []),
    ("postinst abort-upgrade", "systemd systemd-sysusers", "", []),
    ("prerm remove", "systemd", "", [STOP]),
    ("prerm remove", "", "", []),
    ("prerm remove", "systemd", "/other", []),
    ("prerm upgrade", "systemd", "", []),
]


def test_scripts_of_the_package(tmp_path: Path, cases: Any) -> None:
    """A service that cannot be told is no fault of the package, and a user that cannot be made is one."""
    noted, tools = tmp_path / "noted", tmp_path / "tools"
    for number, (words, there, other_root, called) in enumerate(CALLS):
        for failing in ("none", *(call.split()[0] for call in called)):
            noted.write_text("")
            shutil.rmtree(tools, ignore_errors=True)
            tools.mkdir()
            if "systemd" in there.split():
                (tools / "systemd").mkdir()
            for tool in {"systemctl", "deb-systemd-invoke", *there.split()} - {"systemd"}:
                (tools / tool).write_text(f'#!/bin/sh\necho "{tool} $*" >>{noted}\n[ {tool} != {failing} ]\n')
                (tools / tool).chmod(0o755)
            name, word = words.split()
            script = (
                (TOP / f"packaging/rds-monitor.{name}")
                .read_text()
                .replace("/run/systemd/system", f"{tools}/systemd")
            )
            ended = run(
                "/bin/sh", "-c", script, name, word, env={"PATH": str(tools), "DPKG_ROOT": other_root}
            )
            is_fault = failing == "systemd-sysusers"
            assert (ended.status, ended.out, ended.err) == (int(is_fault), b"", b""), (number, failing, ended)
            assert noted.read_text().splitlines() == called[: 1 if is_fault else None], (number, failing)
    cases(sum(1 + len(called) for *_, called in CALLS))
