"""The systemd unit, by systemd's own judges, and the files beside it."""

from __future__ import annotations

import json
import re
import shutil
import subprocess
import textwrap
from pathlib import Path
from typing import Any, Dict, Iterator, List, Tuple

import pytest

from conftest import TOP, ran
from rds_monitor.rows import decoders
from rds_monitor.watch.alarms import NAMES
from rds_monitor.watch.metrics import METRICS
from rds_monitor.watch.table import read_table

PACKAGING = TOP / "packaging"
UNIT = "rds-monitor-watch.service"


@pytest.fixture
def unit(tmp_path: Path) -> Path:
    """The unit with a program that is there in place of the installed one."""
    if not shutil.which("systemd-analyze"):
        pytest.skip("systemd-analyze is missing")
    path = tmp_path / UNIT
    path.write_text((PACKAGING / UNIT).read_text().replace("/usr/bin/rds-monitor", "/bin/true"))
    return path


def analyzed(*words: str) -> "subprocess.CompletedProcess[str]":
    return ran(["systemd-analyze", *words])


def test_systemd_verifies_it(unit: Path) -> None:
    done = analyzed("verify", "--man=no", str(unit))
    assert done.returncode == 0 and done.stderr == ""
    unit.write_text(unit.read_text().replace("WatchdogSec=60", "WatchdogSeconds=60"))
    assert "WatchdogSeconds" in analyzed("verify", "--man=no", str(unit)).stderr


def test_systemd_calls_it_safe(unit: Path) -> None:
    """An exposure of at most 1.5 of 10; without its restrictions it is above 9."""
    assert analyzed("security", "--offline=yes", "--threshold=15", str(unit)).returncode == 0
    limits = "Protect|Restrict|Private|System|Capab|NoNew|Device|User|Ambient"
    unit.write_text(re.sub(f"^(?:{limits}).*\n", "", unit.read_text(), flags=re.MULTILINE))
    assert analyzed("security", "--offline=yes", "--threshold=15", str(unit)).returncode != 0


# The unit, but for comments. tests/test_system.py shows what most of it does.
SETTINGS = {
    "Unit": """
        Description=RDS monitor: sessions, alarms and pages of the stations of a network
        Documentation=man:rds-monitor(1) file:///usr/share/doc/rds-monitor/WATCHING.md.gz
        ConditionPathExists=/etc/rds-monitor/stations.toml
        After=time-sync.target
        Wants=time-sync.target""",
    "Service": """
        Type=notify
        NotifyAccess=main
        ExecStartPre=/usr/bin/rds-monitor watch --check /etc/rds-monitor/stations.toml
        ExecStart=/usr/bin/rds-monitor watch /etc/rds-monitor/stations.toml
        ExecReload=/bin/kill -HUP $MAINPID
        Restart=always
        RestartSec=5
        WatchdogSec=60
        TimeoutStopSec=20
        User=rds-monitor
        Group=rds-monitor
        SupplementaryGroups=plugdev
        StateDirectory=rds-monitor
        StateDirectoryMode=0755
        UMask=0022
        LimitNOFILE=4096
        MemoryMax=75%
        CapabilityBoundingSet=
        AmbientCapabilities=
        NoNewPrivileges=yes
        ProtectSystem=strict
        ProtectHome=yes
        ProtectProc=invisible
        ProcSubset=pid
        PrivateTmp=yes
        PrivateNetwork=yes
        PrivateUsers=no
        DevicePolicy=closed
        DeviceAllow=char-usb_device rw
        ProtectClock=yes
        ProtectHostname=yes
        ProtectKernelLogs=yes
        ProtectKernelModules=yes
        ProtectKernelTunables=yes
        ProtectControlGroups=yes
        RestrictAddressFamilies=AF_UNIX AF_NETLINK
        IPAddressDeny=any
        RestrictNamespaces=yes
        RestrictRealtime=yes
        RestrictSUIDSGID=yes
        RemoveIPC=yes
        LockPersonality=yes
        MemoryDenyWriteExecute=yes
        SystemCallArchitectures=native
        SystemCallFilter=@system-service
        SystemCallFilter=~@privileged @resources
        SystemCallErrorNumber=EPERM""",
    "Install": "WantedBy=multi-user.target",
}


WANTED = {name: textwrap.dedent(text).strip() for name, text in SETTINGS.items()}


def test_what_the_service_is() -> None:
    parts = re.split(r"^\[(\w+)\]\n", (PACKAGING / UNIT).read_text(), flags=re.M)[1:]
    found = {
        name: [line for line in text.splitlines() if line and line[0] != "#"]
        for name, text in zip(parts[::2], parts[1::2])
    }
    assert found == {name: text.split("\n") for name, text in WANTED.items()}
    # Within that time a decoder that hangs is given up, twice.
    assert f"WatchdogSec={2 * decoders.PATIENCE:g}" in found["Service"]
    lines = (PACKAGING / "rds-monitor.sysusers").read_text().splitlines()[1:]
    assert lines == [
        "g plugdev - -",
        'u rds-monitor - "RDS monitor" /var/lib/rds-monitor',
        "m rds-monitor plugdev",
    ]


def test_the_alert_rules_name_what_there_is() -> None:
    text = (PACKAGING / "alerts.yml").read_text()
    assert set(re.findall(r"\brds_[a-z_]+", text)) <= {metric.name for metric in METRICS}
    assert set(re.findall(r'"([a-z_0-9|]+)"\} ', text))
    assert set("|".join(re.findall(r'alarm[=!]~"([^"]+)"', text)).split("|")) <= set(NAMES)


# What is wrong if nothing is received; all others are warnings.
CRITICAL = ("silent", "no_rds", "pi")
Alert = Dict[str, Any]


def alarm(severity: str, station: str, name: str) -> Alert:
    labels = {"severity": severity, "alarm": name, **({"station": station} if station else {})}
    return {"exp_labels": labels, "exp_annotations": {"summary": f"{station}: {name}"}}


def of_station(summary: str) -> Alert:
    return {
        "exp_labels": {"severity": "warning", "station": "Alpha"},
        "exp_annotations": {"summary": f"Alpha: {summary}"},
    }


def alarm_cases() -> Iterator[Tuple[Dict[str, str], str, str, List[Alert]]]:
    """An alarm of each name lasts for two minutes from the second one on: the values, the alert, when, and what it says."""
    for name in NAMES:
        station = "" if name == NAMES[-1] else "Alpha"
        label = f'station="{station}",' if station else ""
        values = {f'rds_alarm{{{label}alarm="{name}"}}': "0 0 1 1 1 0"}
        missing = [alarm("critical", station, name)] if name in CRITICAL else []
        wrong = [] if missing else [alarm("warning", station, name)]
        for at, is_missing, is_wrong in (
            ("1m", 0, 0),
            ("2m", 1, 0),
            ("2m45s", 1, 0),
            ("3m", 1, 1),
            ("4m", 1, 1),
            ("5m", 0, 0),
        ):
            yield values, "RdsMissing", at, missing * is_missing
            yield values, "RdsWrong", at, wrong * is_wrong


def other_cases() -> Iterator[Tuple[Dict[str, str], str, str, List[Alert]]]:
    """Each limit from both sides, and a time that ends."""
    stopped = {
        "exp_labels": {"severity": "critical"},
        "exp_annotations": {"summary": "rds-monitor watch has written nothing for five minutes"},
    }
    written = {"rds_watch_timestamp_seconds": "0x4 240x9"}
    for at, alerts in (("4m", 0), ("9m", 0), ("9m15s", 1), ("12m", 1)):
        yield written, "RdsWatchStopped", at, [stopped] * alerts
    for second, alerts in ((300, 0), (299, 1)):
        yield {"rds_watch_timestamp_seconds": f"{second}x10"}, "RdsWatchStopped", "10m", [stopped] * alerts
    starts = 'rds_receiver_starts_total{station="Alpha"}'
    seven = of_station("the receiver was started 7 times in an hour")
    yield {starts: "1+0.1x60"}, "RdsReceiverRestarts", "60m", []
    yield {starts: "1x29 8x150"}, "RdsReceiverRestarts", "60m", [seven]
    yield {starts: "1x29 8x150"}, "RdsReceiverRestarts", "91m", []
    ratio = 'rds_bad_blocks_ratio{station="Alpha"}'
    tenth, more = (of_station(f"{text} of the blocks bad for half an hour") for text in ("10.01%", "19.35%"))
    yield {ratio: "0.0999x60"}, "RdsBadBlocks", "40m", []
    yield {ratio: "0.1001x60"}, "RdsBadBlocks", "40m", [tenth]
    yield {ratio: "1x9 0x60"}, "RdsBadBlocks", "34m", [more]
    yield {ratio: "1x9 0x60"}, "RdsBadBlocks", "40m", []


def test_alerts_on_both_sides_of_their_limits(tmp_path: Path) -> None:
    """Prometheus's own tool judges each rule."""
    if not shutil.which("promtool"):
        pytest.skip("promtool is missing")
    cases = [*alarm_cases(), *other_cases()]
    asked: Dict[str, Any] = {}
    for values, alert, at, alerts in cases:
        series = [{"series": name, "values": text} for name, text in values.items()]
        test = asked.setdefault(
            str(values), {"interval": "1m", "input_series": series, "alert_rule_test": []}
        )
        test["alert_rule_test"].append({"eval_time": at, "alertname": alert, "exp_alerts": alerts})
    tests = [*asked.values()]
    rules = {"rule_files": [str(PACKAGING / "alerts.yml")], "evaluation_interval": "15s", "tests": tests}
    (tmp_path / "rules.yml").write_text(json.dumps(rules))
    done = ran(["promtool", "test", "rules", tmp_path / "rules.yml"])
    assert done.returncode == 0, done.stdout + done.stderr
    named = re.findall("- alert: (.*)", (PACKAGING / "alerts.yml").read_text())
    assert {*named} == {alert for _, alert, _, alerts in cases if alerts}


# The options of the receiver's program: its rate and its frequency are those of the station.
RTL_FM = {"-d": "0", "-M": "fm", "-l": "0", "-A": "std", "-p": "0", "-s": "171k", "-F": "9", "-f": "98.1M"}


def test_the_table_of_the_package() -> None:
    """Its station is as its receiver is tuned, and it keeps as much as the one of the page."""
    page = (TOP / "monitor" / "WATCHING.md").read_text()
    (alpha,) = (table := read_table(str(PACKAGING / "stations.toml"))).stations
    program, *words = alpha.command
    assert (program, dict(zip(words[::2], words[1::2]))) == ("rtl_fm", RTL_FM)
    assert (alpha.name, alpha.form, alpha.raw, alpha.rate) == ("Alpha", "mpx", "s16", 171000)
    assert (alpha.frequency, alpha.pi, alpha.ps) == (98.1, ("D318",), ("ALPHA*",))
    told = dict(re.findall(r"^    (listings_days|listings_gb|database_days) = (\d+)", page, re.M))
    assert table.keep._asdict() == {**{name: float(text) for name, text in told.items()}, "compress": False}
    assert table.folder is None and len(told) == 3
