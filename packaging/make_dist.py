#!/usr/bin/python3
"""Makes the tarball of a release of a program and a library that are built: packaging/make_dist.py PROGRAM LIBRARY FOLDER TOOLCHAIN

LIBRARY is the folder that `make lib` fills, TOOLCHAIN the line of `rt version` by which both were built. FOLDER gets
rds-VERSION-x86_64.tar.zst, whose name is printed: the files that `make install install-lib` installs, rds-monitor as a wheel with
librds in it, the pages with the files that they link to, what is in it by SPDX 2.3, and the sums of all files. The date is
SOURCE_DATE_EPOCH, or else that of the last commit, so that the same tree, program and library make the same tarball. Needs make,
binutils, git, Debian's python3-zstandard, and what packaging/make_pages.py needs.
"""

from __future__ import annotations

import datetime
import hashlib
import io
import json
import os
import re
import shutil
import subprocess
import sys
import tarfile
import tempfile
from pathlib import Path
from typing import Any, Dict, List

try:
    import zstandard
except ImportError:
    sys.exit("make_dist: install python3-zstandard")

TOP = Path(__file__).resolve().parents[1]
SUMS, SBOM = "SHA256SUMS", "sbom.spdx.json"
# Where the tarball has files of the tree that pages link to.
INSTALLED = {"lib/rds.h": "include/rds.h", "rds.1": "share/man/man1/rds.1"}
# What the built files and rds-monitor need of others, and from where it comes.
NEEDS = {"glibc": "the system's, at run time", "python3-numpy": "the system's, for rds-monitor"}


def said(*words: Any, **more: str) -> str:
    """The output of a command in the project's folder, which must not depend on the caller's make."""
    known = {key: value for key, value in os.environ.items() if not re.match("MAKE|MFLAGS", key)}
    done = subprocess.run(
        [*map(str, words)], cwd=TOP, env={**known, **more}, stdout=subprocess.PIPE, text=True
    )
    if done.returncode:
        sys.exit(f"make_dist: {words[0]} ended with status {done.returncode}")
    return done.stdout.strip()


def digest(data: bytes, name: str = "sha256") -> str:
    return hashlib.new(name, data).hexdigest()


def files_in(folder: Path) -> List[Path]:
    return sorted(path for path in folder.rglob("*") if path.is_file() and not path.is_symlink())


# ---- the files


def fill(folder: Path, program: Path, library: Path, epoch: str) -> None:
    """Below the folder, as below a PREFIX. Nothing in it says where that is."""
    with tempfile.TemporaryDirectory() as work:
        built = Path(work)
        said("strip", "-o", built / "rds", program)
        said("strip", "--strip-unneeded", "-o", built / "librds.so.0", library / "librds.so.0")
        said("strip", "--strip-debug", "-D", "-o", built / "librds.a", library / "librds.a")
        known = {"DESTDIR": folder.parent, "PREFIX": f"/{folder.name}", "PYTHON": sys.executable}
        known.update(PROGRAM=built / "rds", LIBRARY=built)
        words = "make -s install-program install-lib PAGES_NEEDED=1".split()
        said(*words, *(f"{name}={value}" for name, value in known.items()))
        said(sys.executable, "bindings/python/make_wheel.py", built / "librds.so.0", folder, "--monitor")
        said(sys.executable, "packaging/make_pages.py", built / "pages", SOURCE_DATE_EPOCH=epoch)
        for name, to in {
            "rds-monitor.1": "man/man1",
            "rds-monitor.bash": "bash-completion/completions",
        }.items():
            shutil.copy(built / "pages" / name, folder / "share" / to / name.removesuffix(".bash"))
        shutil.copy(built / "pages" / "_rds-monitor", folder / "share" / "zsh" / "site-functions")
    settings = folder / "lib" / "pkgconfig" / "rds.pc"
    text = re.sub(r"^libdir=.*$", "libdir=${prefix}/lib", settings.read_text(), flags=re.M)
    settings.write_text(re.sub(r"^prefix=.*$", "prefix=${pcfiledir}/../..", text, flags=re.M))
    copy_pages(folder)
    shutil.copy(TOP / "packaging" / "copyright", folder / "COPYRIGHT")


def copy_pages(folder: Path) -> None:
    """README.md, and all to which links lead from there. A link to an installed file leads to where that is."""
    (folder / "examples").symlink_to("share/rds/examples")
    pages = ["README.md"]
    for page in pages:
        (folder / page).parent.mkdir(parents=True, exist_ok=True)
        if not page.endswith(".md"):
            shutil.copy(TOP / page, folder / page)
            continue
        parts = re.split(r"(\]\((?!https?:)[^)#\s]+)", (TOP / page).read_text(encoding="utf-8"))
        for number in range(1, len(parts), 2):
            target = os.path.normpath(os.path.join(os.path.dirname(page), parts[number][2:]))
            there = INSTALLED.get(target, target)
            parts[number] = "](" + os.path.relpath(there, os.path.dirname(page) or ".")
            if there not in pages and not (folder / there).exists():
                pages.append(there)
        (folder / page).write_text("".join(parts), encoding="utf-8")


# ---- what is in it, by SPDX 2.3


def part(name: str, version: str, comment: str) -> Dict[str, Any]:
    unknown = dict.fromkeys(
        ("downloadLocation", "licenseConcluded", "licenseDeclared", "copyrightText"), "NOASSERTION"
    )
    found = {"SPDXID": f"SPDXRef-{name}", "name": name, "comment": comment, "filesAnalyzed": False, **unknown}
    return {**found, "versionInfo": version} if version else found


def linked_crates() -> List[str]:
    """The toolchain's crates that the program and the library stand on."""
    lines = re.findall(r"^(\w+)[^:\n]*: (.*)$", (TOP / "crates.txt").read_text(), re.M)
    own, found = {name: names.split() for name, names in lines}, ["rds", "rds_c"]
    for name in found:
        found += [one for one in own.get(name, ()) if one not in found]
    return sorted({*found} - {*own})


def sbom(folder: Path, version: str, toolchain: str, epoch: str) -> Dict[str, Any]:
    data = {f"./{path.relative_to(folder)}": path.read_bytes() for path in files_in(folder)}
    checks = {name: {kind: digest(held, kind) for kind in ("sha1", "sha256")} for name, held in data.items()}
    code = digest("".join(sorted(check["sha1"] for check in checks.values())).encode(), "sha1")
    rds = {**part("rds", version, "what this tarball has"), "filesAnalyzed": True}
    rds["packageVerificationCode"] = {"packageVerificationCodeValue": code}
    tool = part("rattle", toolchain, "the toolchain that proved and built rds and librds")
    crates = [part(name, toolchain, "a crate of the toolchain, linked in") for name in linked_crates()]
    others = [part(name, "", comment) for name, comment in NEEDS.items()]
    files = [
        {
            "fileName": name,
            "SPDXID": f"SPDXRef-file-{number}",
            "checksums": [
                {"algorithm": kind.upper(), "checksumValue": value} for kind, value in check.items()
            ],
            "licenseConcluded": "NOASSERTION",
            "copyrightText": "NOASSERTION",
        }
        for number, (name, check) in enumerate(checks.items())
    ]
    of_rds = [
        ("DESCRIBES", "SPDXRef-DOCUMENT", "SPDXRef-rds"),
        ("BUILD_TOOL_OF", "SPDXRef-rattle", "SPDXRef-rds"),
    ]
    of_rds += [("CONTAINS", "SPDXRef-rds", entry["SPDXID"]) for entry in files]
    of_rds += [("STATIC_LINK", "SPDXRef-rds", one["SPDXID"]) for one in crates]
    of_rds += [("DEPENDS_ON", "SPDXRef-rds", one["SPDXID"]) for one in others]
    created = datetime.datetime.fromtimestamp(int(epoch), datetime.timezone.utc).strftime(
        "%Y-%m-%dT%H:%M:%SZ"
    )
    return {
        "spdxVersion": "SPDX-2.3",
        "dataLicense": "CC0-1.0",
        "SPDXID": "SPDXRef-DOCUMENT",
        "name": folder.name,
        "documentNamespace": f"https://noreply.paxolidu.example/spdx/{folder.name}-{code}",
        "creationInfo": {"created": created, "creators": ["Tool: make_dist.py"]},
        "packages": [rds, tool, *crates, *others],
        "files": files,
        "relationships": [
            {"spdxElementId": one, "relationshipType": kind, "relatedSpdxElement": other}
            for kind, one, other in of_rds
        ],
    }


# ---- the tarball


def pack(folder: Path, path: Path, epoch: str) -> None:
    def plain(entry: tarfile.TarInfo) -> tarfile.TarInfo:
        entry.uid = entry.gid = 0
        entry.uname = entry.gname = "root"
        entry.mtime = int(epoch)
        entry.mode = 0o755 if entry.isdir() or entry.mode & 0o100 else 0o644
        return entry

    packed = io.BytesIO()
    with tarfile.open(fileobj=packed, mode="w", format=tarfile.GNU_FORMAT) as tar:
        tar.add(folder, folder.name, recursive=False, filter=plain)
        for one in sorted(folder.rglob("*")):
            tar.add(one, f"{folder.name}/{one.relative_to(folder)}", recursive=False, filter=plain)
    path.write_bytes(zstandard.ZstdCompressor(level=19).compress(packed.getvalue()))


def main(words: List[str]) -> None:
    if len(words) != 4:
        sys.exit("usage: packaging/make_dist.py PROGRAM LIBRARY FOLDER TOOLCHAIN")
    program, library, folder = (Path(word).resolve() for word in words[:3])
    toolchain = words[3]
    for path in (program, library / "librds.so.0", library / "librds.a"):
        if not path.is_file():
            sys.exit(f"make_dist: there is no {path}: `make` and `make lib` build it, or name another")
    if not re.fullmatch(r"\S.* logic \S+", toolchain):
        sys.exit("make_dist: by which toolchain was it built? TOOLCHAIN='the line of rt version' says it")
    epoch = os.environ.get("SOURCE_DATE_EPOCH") or said("git", "log", "-1", "--format=%ct")
    version = said(program, "--version").removeprefix("rds ")
    with tempfile.TemporaryDirectory() as work:
        top = Path(work) / f"rds-{version}-x86_64"
        top.mkdir()
        fill(top, program, library, epoch)
        (top / "TOOLCHAIN").write_text(toolchain + "\n")
        (top / SBOM).write_text(json.dumps(sbom(top, version, toolchain, epoch), indent=1) + "\n")
        sums = "".join(f"{digest(path.read_bytes())}  {path.relative_to(top)}\n" for path in files_in(top))
        (top / SUMS).write_text(sums)
        path = folder / f"{top.name}.tar.zst"
        pack(top, path, epoch)
    print(path)


if __name__ == "__main__":
    main(sys.argv[1:])
