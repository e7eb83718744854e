"""The state of the stations in the text format of Prometheus."""

from typing import Any, Dict, Iterable, Iterator, List, Mapping, NamedTuple, Tuple

from ..db.standing import STATES, Availability, bad_in, standing_of
from .alarms import NAMES


class Metric(NamedTuple):
    """A counter if its name ends so, or else a gauge."""

    name: str
    help: str


_METRICS = """\
rds_receiver_up: Whether the receiver's command runs.
rds_receiver_starts_total: Starts of the receiver's command since the watch began.
rds_blocks_total: Blocks by outcome since the watch began: valid, corrected, uncorrectable (lost), sent without sync (missing).
rds_bad_blocks_ratio: Of the blocks of the last minute, the part that was not valid.
rds_station_state: Whether the station is in this state.
rds_day_seconds: Seconds of the last 24 hours: received, noise, down (no session), unknown (no watch).
rds_last_group_timestamp_seconds: When the last whole group ended.
rds_clock_offset_seconds: The station's clock time (CT) less that of this machine.
rds_pi_as_expected: Whether the PI is an expected one.
rds_snr_db: Signal-to-noise ratio of RDS in the last minute or two, of MPX and IQ.
rds_level_dbfs: Power of the station's channel in the last minute or two, of IQ.
rds_alarm: Whether the alarm lasts.
rds_watch_timestamp_seconds: When this file was written."""
METRICS = [Metric(*line.split(": ", 1)) for line in _METRICS.splitlines()]

Sample = Tuple[str, Dict[str, str], float]


def metrics_text(
    states: Dict[str, Dict[str, Any]], days: Dict[str, Availability], lasting: Mapping[str, str], utc: float
) -> str:
    samples = [sample for name in sorted(states) for sample in _samples(name, states[name], days[name])]
    # The last alarm is of the watch.
    samples.append(("rds_alarm", {"alarm": NAMES[-1]}, float(NAMES[-1] in lasting)))
    samples.append(("rds_watch_timestamp_seconds", {}, utc))
    return "".join(_text(one, [sample for sample in samples if sample[0] == one.name]) for one in METRICS)


def _text(metric: Metric, samples: Iterable[Sample]) -> str:
    lines: List[str] = [f"{name}{_labels(labels)} {value:.15g}\n" for name, labels, value in samples]
    kind = "counter" if metric.name.endswith("_total") else "gauge"
    head = f"# HELP {metric.name} {metric.help}\n# TYPE {metric.name} {kind}\n"
    return head + "".join(lines) if lines else ""


def _labels(labels: Dict[str, str]) -> str:
    escapes = str.maketrans({"\\": "\\\\", '"': '\\"', "\n": "\\n"})
    told = ",".join(f'{name}="{value.translate(escapes)}"' for name, value in labels.items())
    return f"{{{told}}}" if told else ""


def _samples(name: str, state: Dict[str, Any], day: Availability) -> Iterator[Sample]:
    of = {"station": name}
    yield "rds_receiver_up", of, float(state["running"])
    yield "rds_receiver_starts_total", of, state["starts"]
    for outcome, count in state["blocks"].items():
        yield "rds_blocks_total", {**of, "outcome": outcome}, count
    stands, bad = standing_of(state), bad_in(state["minute"])
    for word in STATES:
        yield "rds_station_state", {**of, "state": word}, float(word == stands.state)
    for word, seconds in day._asdict().items():
        yield "rds_day_seconds", {**of, "state": word}, round(seconds, 3)
    pi, expected = state["held"].get("pi"), state["expected_pi"]
    known = (
        ("rds_bad_blocks_ratio", None if bad is None else bad / 100),
        ("rds_last_group_timestamp_seconds", state["last_group_utc"]),
        ("rds_clock_offset_seconds", state["clock_s"]),
        ("rds_pi_as_expected", float(pi in expected) if pi and expected else None),
        ("rds_snr_db", state["signal"].get("snr_db")),
        ("rds_level_dbfs", state["signal"].get("level_dbfs")),
    )
    for metric, value in known:
        if value is not None:
            yield metric, of, value
    for alarm in NAMES[:-1]:
        yield "rds_alarm", {**of, "alarm": alarm}, float(alarm in state["alarms"])
