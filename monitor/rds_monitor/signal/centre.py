"""Frequencies: as texts, and that of a capture's centre, which SDR programs write into files and their names."""

import json
import math
import os
import re
import struct
from typing import NamedTuple, Optional

from ..rows.items import Fault

SCALES = {"": 1.0, "k": 1e3, "M": 1e6, "G": 1e9}
# SDR# 98100000Hz, HDSDR 98100kHz, SDR Console 98.100MHz; gqrx has the centre, then the rate.
NAMED = re.compile(r"(?<![0-9A-Za-z.])(\d+(?:\.\d+)?) ?([kMG]?)Hz", re.IGNORECASE)
GQRX = re.compile(r"gqrx_\d{8}_\d{6}_(\d+)_\d+_fc")
# SigMF's names of the raw forms.
SIGMF_FORMS = {"cu8": "u8", "ci16_le": "s16", "ci16": "s16", "cf32_le": "f32", "cf32": "f32"}


def frequency_of(text: str) -> float:
    """In Hz: 98.1M, 98100k or 98100000."""
    found = re.fullmatch(r"([-+]?\d+(?:\.\d*)?(?:e\d+)?)([kMG]?)", text.strip())
    value = float(found[1]) * SCALES[found[2]] if found else math.inf
    if not abs(value) < 1e12:
        raise Fault(f"{text!r} is no frequency such as 98.1M or 98100000")
    return round(value, 3)


def frequency_text(hertz: float, is_known: bool = True) -> str:
    """98.1M, and of an offset +0.3M."""
    return f"{hertz / 1e6:{'' if is_known else '+'}.10g}M"


def centre_in_auxi(body: bytes) -> Optional[float]:
    """Of a WAV file's chunk auxi: SpectraVue's has two times of 16 bytes, then the centre; that of SDR Console is XML."""
    told = re.search(rb'CenterFreq="(\d+)"', body.replace(b"\0", b""))
    if told:
        return float(told[1])
    centre = struct.unpack_from("<I", body, 32)[0] if len(body) >= 36 and b"<" not in body[:4] else 0
    return float(centre) if centre else None


def centre_in_name(path: str) -> Optional[float]:
    name = os.path.basename(path)
    gqrx = GQRX.search(name)
    if gqrx:
        return float(gqrx[1])
    found = NAMED.search(name)
    scale = {"k": "k", "m": "M", "g": "G"}.get(found[2].lower(), "") if found else ""
    return round(float(found[1]) * SCALES[scale], 3) if found else None


class SigMf(NamedTuple):
    """What a .sigmf-meta tells of the samples beside it."""

    data: str
    raw: str
    rate: int
    centre: Optional[float]


def sigmf_of(path: str) -> Optional[SigMf]:
    """Of a recording of SigMF, named by either of its files."""
    base, extension = os.path.splitext(path)
    meta = f"{base}.sigmf-meta"
    if extension not in (".sigmf-data", ".sigmf-meta") or not os.path.exists(meta):
        return None
    try:
        with open(meta, encoding="utf-8") as file:
            told = json.load(file)
        kind, rate = told["global"]["core:datatype"], round(float(told["global"]["core:sample_rate"]))
        centre = (told.get("captures") or [{}])[0].get("core:frequency")
        centre = None if centre is None else float(centre)
    except (OSError, ValueError, KeyError, TypeError, AttributeError, OverflowError) as error:
        raise Fault(f"{meta!r} is no description of a recording: {type(error).__name__} {error}") from None
    if kind not in SIGMF_FORMS:
        raise Fault(f"{meta!r}: samples {kind} are not read: {', '.join(SIGMF_FORMS)} are")
    return SigMf(f"{base}.sigmf-data", SIGMF_FORMS[kind], rate, centre)
