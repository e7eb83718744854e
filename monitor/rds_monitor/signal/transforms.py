"""Fourier transforms of rows of complex numbers in single precision: by pyFFTW, scipy or numpy, the first that is installed."""

import importlib
from contextlib import suppress
from functools import lru_cache
from typing import Any, Dict, Tuple

from .samples import Signal


class Fftw:
    """By FFTW, with a plan for each shape. Such a plan is estimated, which takes no time; a measured one would take seconds."""

    def __init__(self) -> None:
        self._pyfftw: Any = importlib.import_module("pyfftw")
        self._plans: Dict[Tuple[Any, str], Any] = {}

    def fft(self, signal: Signal) -> Signal:
        return self._of(signal, "FFTW_FORWARD")

    def ifft(self, signal: Signal) -> Signal:
        return self._of(signal, "FFTW_BACKWARD")

    def _of(self, signal: Signal, direction: str) -> Signal:
        key = signal.shape, direction
        if key not in self._plans:
            room = (self._pyfftw.empty_aligned(signal.shape, "c8") for _ in range(2))
            options = {"axes": (-1,), "direction": direction, "flags": ("FFTW_ESTIMATE",)}
            self._plans[key] = self._pyfftw.FFTW(*room, **options)
        plan = self._plans[key]
        plan.input_array[:] = signal
        found: Signal = plan().copy()
        return found


@lru_cache(None)
def transforms() -> Any:
    """What has `fft` and `ifft`."""
    with suppress(ImportError):
        return Fftw()
    with suppress(ImportError):
        return importlib.import_module("scipy.fft")
    return importlib.import_module("numpy.fft")
