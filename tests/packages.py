"""The Debian packages, built of a program and a library that are there, and a root folder in which they are installed."""

from __future__ import annotations

import os
from pathlib import Path
from typing import Any

from running import TOP, first_program, run, said, wrote

SAMPLE = (TOP / "examples" / "station.bin").read_bytes()
CC = os.environ.get("CC", "cc")
TOOLS = ["dpkg", "dpkg-architecture", "dpkg-deb", "dpkg-shlibdeps", "readelf", "strip", "lintian"]
# dpkg looks for its helpers there
os.environ["PATH"] += ":/usr/local/sbin:/usr/sbin:/sbin"
# installing gives files to root, or seems to
AS_ROOT = [] if os.getuid() == 0 else ["fakeroot"]


def dated() -> dict[str, str]:
    return {**os.environ, "SOURCE_DATE_EPOCH": "1700000000"}


def made(rds: str, librds: str, folder: Path, arm64: str | None, **options: Any) -> list[Path]:
    """Builds the packages into the folder."""
    words = [TOP / "packaging/make_deb.sh", rds, librds, folder, *([arm64] if arm64 else [])]
    how: dict[str, Any] = {"cwd": TOP, "timeout": 300, "env": dated(), **options}
    done = run(*words, **how)
    assert (done.status, done.err) == (0, b""), done
    return [Path(line) for line in done.out.decode().splitlines()]


class Packages:
    """The packages, and a root folder in which those of this processor are installed."""

    def __init__(self, rds: str, librds: str, arm64: str | None, folder: Path) -> None:
        self.rds, self.librds, self.arm64, self.folder = rds, librds, arm64, folder / "a folder"
        self.folder.mkdir()
        self.files = made(rds, librds, self.folder, arm64)
        self.version = said(rds, "--version").removeprefix("rds ") + "-1"
        self.root = folder / "root"
        self.libdir = f"/usr/lib/{said('dpkg-architecture', '-qDEB_HOST_MULTIARCH')}"
        self.installed = [path for path in self.files if not path.name.endswith("_arm64.deb")]
        for name in ("info", "updates", "triggers"):
            (self.root / "var/lib/dpkg" / name).mkdir(parents=True)
        needed = ("libc6", "python3", "python3-numpy")
        status = [run("dpkg-query", "--status", name).out + b"\n" for name in needed]
        (self.root / "var/lib/dpkg/status").write_bytes(b"".join(status))
        self.dpkg("--install", *map(str, self.installed))

    def dpkg(self, *words: str) -> None:
        """dpkg on the root folder, by none of this machine's settings that leave out files."""
        options = ["--force-not-root", "--force-script-chrootless", "--path-include=*", "--force-depends"]
        folders = [f"--root={self.root}", f"--log={self.folder}/log"]
        wrote(*AS_ROOT, "dpkg", *folders, *options, *words, timeout=120)

    def there(self) -> list[str]:
        """The files in the root folder but for dpkg's own."""
        return sorted(f"/{name}" for name in files_below(self.root) if not name.startswith("var/lib/dpkg/"))

    def differing(self) -> list[str]:
        """The installed files that are missing, or other than they were."""
        lines = run("dpkg", f"--root={self.root}", "--verify").out.decode().splitlines()
        return [line.split()[-1] for line in lines]

    def run_program(self, *words: object) -> str:
        python = {"PYTHONPATH": f"{self.root}/usr/lib/python3/dist-packages", "PYTHONDONTWRITEBYTECODE": "1"}
        library = {"RDS_LIBRARY": "", "LD_LIBRARY_PATH": f"{self.root}{self.libdir}"}
        return said(*words, data=SAMPLE, env={**os.environ, **python, **library})

    def program(self, folder: Path, *options: str) -> Path:
        """docs/LIBRARY.md's first program in C, with these options."""
        (folder / "first.c").write_text(first_program("c"))
        wrote(CC, "-o", folder / "program", folder / "first.c", *options)
        return folder / "program"


def files_below(folder: Path) -> set[str]:
    paths = (path for path in folder.rglob("*") if path.is_symlink() or not path.is_dir())
    return {str(path.relative_to(folder)) for path in paths}
