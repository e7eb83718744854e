"""Installs the packages in the machine that boot.sh starts, runs rds-monitor-watch.service there, and removes them.

It writes as JSON what happens, step by step; tests/test_system.py has what has to.
"""

from __future__ import annotations

import json
import os
import pwd
import stat
import subprocess
import time
from pathlib import Path
from typing import Any, Callable

UNIT, STATE, TABLE = "rds-monitor-watch", Path("/var/lib/rds-monitor"), Path("/etc/rds-monitor/stations.toml")
# the seconds that any step may take
PATIENCE = 100.0


def run(*words: object) -> int:
    return subprocess.run([*map(str, words)], stdout=subprocess.DEVNULL).returncode


def systemctl(*words: str) -> int:
    return run("systemctl", *words, UNIT)


def shown(*names: str) -> dict[str, str]:
    """Properties of the unit."""
    text = subprocess.run(["systemctl", "show", UNIT], stdout=subprocess.PIPE, text=True).stdout
    found = dict(line.split("=", 1) for line in text.splitlines())
    return {name: found.get(name, "") for name in names}


def state() -> str:
    return shown("ActiveState")["ActiveState"]


def until(holds: Callable[[], Any]) -> bool:
    end = time.monotonic() + PATIENCE
    while not holds() and time.monotonic() < end:
        time.sleep(0.05)
    return bool(holds())


def dpkg(*words: object) -> int:
    return run("dpkg", "--admindir=/given/dpkg", "--force-depends", "--path-exclude=/usr/share/doc/*", *words)


def write_table(*names: str, key: str = "command") -> None:
    words = lambda name: json.dumps(["/usr/bin/python3", "/given/receiver.py", name])
    stations = [f'[[station]]\nname = "{name}"\n{key} = {words(name)}\n' for name in names]
    TABLE.parent.mkdir(exist_ok=True)
    TABLE.write_text("\n".join(stations))


def seen(name: str) -> Any:
    """What the receiver of a station tells of itself."""
    path = STATE / f"{name}.json"
    return json.loads(path.read_text()) if until(path.exists) else None


def hours(name: str) -> list[Path]:
    """The listings of a station, the last one of the killed watch, and then one of the next."""
    return sorted(STATE.glob(f"listings/{name}/*.csv"))


def main_process() -> int:
    return int(shown("MainPID")["MainPID"])


def processes() -> int:
    path = Path(f"/sys/fs/cgroup/system.slice/{UNIT}.service/cgroup.procs")
    return len(path.read_text().split()) if path.exists() else 0


def modes(*folders: Path) -> dict[str, list[str]]:
    """The files and folders by owner and mode."""
    found: dict[str, list[str]] = {}
    for folder in folders:
        for path in sorted([folder, *folder.rglob("*")]):
            told = path.lstat()
            kind = "d" if stat.S_ISDIR(told.st_mode) else "-"
            name = f"{pwd.getpwuid(told.st_uid).pw_name} {kind}{stat.S_IMODE(told.st_mode):o}"
            found.setdefault(name, []).append(str(path))
    return found


# ---- the steps


def installed() -> dict[str, Any]:
    for folder in ("info", "updates", "triggers"):
        os.makedirs(f"/given/dpkg/{folder}", exist_ok=True)
    Path("/given/dpkg/status").touch()
    status = dpkg("--install", *sorted(Path("/given").glob("*.deb")))
    user = pwd.getpwnam("rds-monitor")
    started: dict[str, Any] = {"status": systemctl("start"), **shown("ActiveState", "ConditionResult")}
    return {
        "status": status,
        "user": [user.pw_dir, user.pw_shell, user.pw_gecos],
        "enabled": systemctl("is-enabled", "--quiet"),
        "started without a table": started,
    }


def refused() -> dict[str, Any]:
    """A table with a mistake."""
    write_table("Alpha", key="comand")
    found: dict[str, Any] = {"status": systemctl("start"), **shown("MainPID", "ExecMainPID")}
    systemctl("stop")
    systemctl("reset-failed")
    return found


def prepared() -> None:
    """Files that only the service's own bounds forbid."""
    for path in map(Path, ("/etc/open", "/srv/open", "/home/open")):
        path.mkdir()
        path.chmod(0o777)
    Path("/tmp/of_others").touch()
    # as many as USB devices have, of /dev/mem, and of a disk's
    for name, kind, major, minor in (
        ("usb", stat.S_IFCHR, 189, 0),
        ("memory", stat.S_IFCHR, 1, 1),
        ("disk", stat.S_IFBLK, 7, 0),
    ):
        os.mknod(f"/dev/{name}", kind | 0o666, os.makedev(major, minor))
        os.chmod(f"/dev/{name}", 0o666)


def started() -> dict[str, Any]:
    write_table("Alpha")
    status, told = systemctl("start"), seen("Alpha")
    until((STATE / "metrics.prom").exists)
    apart = {
        name: told["apart"].pop(name) != os.readlink(f"/proc/self/ns/{name}") for name in [*told["apart"]]
    }
    noted = shown("WatchdogTimestampMonotonic")
    has_usb = "189 usb_device" in Path("/proc/devices").read_text()
    return {
        "status": status,
        "state": state(),
        "receiver": {**told, "apart": apart},
        "has_usb": has_usb,
        "heard by systemd": until(lambda: shown("WatchdogTimestampMonotonic") != noted),
        "modes": [*modes(STATE)],
    }


def reloaded() -> dict[str, Any]:
    process = main_process()
    write_table("Alpha", "Beta")
    status = systemctl("reload")
    told = {"status": status, "beta": bool(seen("Beta")), "same process": process == main_process()}
    until(lambda: hours("Beta"))
    return told


def upgraded() -> dict[str, Any]:
    """The packages once more, over a unit that was changed meanwhile: the service goes on, and systemd reads the unit again."""
    process, path = main_process(), Path(shown("FragmentPath")["FragmentPath"])
    path.write_text(path.read_text() + "# changed\n")
    # an older one, as that of an earlier package
    os.utime(path, (0, 0))
    run("systemctl", "daemon-reload")
    status = dpkg("--install", *Path("/given").glob("rds-monitor_*.deb"))
    same = process == main_process() and state() == "active"
    return {"status": status, "same process": same, **shown("NeedDaemonReload")}


def killed() -> dict[str, Any]:
    """The main process, and with it all others; after a pause there are new ones."""
    process, begin = main_process(), time.monotonic()
    os.kill(process, 9)
    is_new = until(lambda: state() == "active" and main_process() not in (0, process))
    return {"new": is_new, "pause": time.monotonic() - begin, **shown("NRestarts")}


def stopped() -> dict[str, Any]:
    """Its sessions have their totals, and no process is left."""
    until(lambda: len(hours("Beta")) > 1)
    status, told = systemctl("stop"), shown("ActiveState", "Result", "ExecMainStatus")
    last = hours("Beta")[-1].read_text().splitlines()[-1].split(",")[0]
    return {"status": status, **told, "processes": processes(), "last row": last}


def enabled() -> dict[str, Any]:
    systemctl("enable")
    link = Path("/etc/systemd/system/multi-user.target.wants", f"{UNIT}.service")
    return {"enabled": systemctl("is-enabled", "--quiet"), "by": link.is_symlink()}


def removed() -> dict[str, Any]:
    """The running service ends with its package."""
    systemctl("start")
    before = state()
    status = dpkg("--remove", "rds-monitor")
    until(lambda: processes() == 0)
    left = [path for path in ("/usr/bin/rds-monitor", "/usr/share/rds-monitor") if os.path.exists(path)]
    return {"before": before, "status": status, "state": state(), "processes": processes(), "left": left}


def main() -> None:
    told: dict[str, Any] = {"installed": installed(), "refused": refused()}
    prepared()
    for step in (started, reloaded, upgraded, killed, stopped, enabled, removed):
        told[step.__name__] = step()
    print(json.dumps(told), flush=True)


if __name__ == "__main__":
    main()
