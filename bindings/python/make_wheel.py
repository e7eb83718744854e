#!/usr/bin/env python3
"""A wheel of librds with the library in it: bindings/python/make_wheel.py LIBRARY FOLDER [--monitor]

With --monitor it is a wheel of rds-monitor, which has librds in it too. Prints its path. The rules are those of
auditwheel: the library may need only the C library, and by the newest of its symbol versions the wheel says on which
systems it runs. The same library gives the same bytes. Needs Python 3.11 or later, and objdump.
"""

from __future__ import annotations

import base64
import hashlib
import re
import subprocess
import sys
import tomllib
import zipfile
from pathlib import Path
from typing import Any, Dict

HERE = Path(__file__).resolve().parent
MONITOR = HERE.parents[1] / "monitor"
# By the ELF header's number of the machine.
MACHINES = {62: "x86_64", 183: "aarch64"}
OLDEST_GLIBC = (2, 17)
C_LIBRARY = {"libc.so.6", "ld-linux-aarch64.so.1"}


def platform_of(library: Path) -> str:
    """The wheel's platform tag."""
    header = library.read_bytes()[:20]
    machine = MACHINES.get(int.from_bytes(header[18:20], "little"))
    if header[:4] != b"\x7fELF" or machine is None:
        sys.exit(f"{library}: no library of {' or '.join(MACHINES.values())}")
    said = subprocess.run(["objdump", "-pT", str(library)], capture_output=True, text=True, check=True).stdout
    needed = set(re.findall(r"^ *NEEDED +(\S+)", said, re.M))
    if not needed <= C_LIBRARY:
        sys.exit(f"{library}: a wheel cannot need {', '.join(sorted(needed - C_LIBRARY))}")
    found = [tuple(map(int, text.split("."))) for text in re.findall(r"GLIBC_([0-9.]+)", said)]
    major, minor = max([OLDEST_GLIBC, *(entry[:2] for entry in found)])
    return f"manylinux_{major}_{minor}_{machine}"


def metadata_of(project: Dict[str, Any]) -> str:
    """What pyproject.toml says, with its page, if there is one, as the long description."""
    lines = ["Metadata-Version: 2.1", f"Name: {project['name']}", f"Version: {project['version']}"]
    lines += [f"Summary: {project['description']}"]
    lines += [f"Keywords: {','.join(project['keywords'])}"] if "keywords" in project else []
    lines += [f"Classifier: {name}" for name in project.get("classifiers", ())]
    lines += [f"Requires-Python: {project['requires-python']}"]
    lines += [f"Requires-Dist: {need}" for need in project.get("dependencies", ())]
    for extra, needs in project["optional-dependencies"].items():
        lines.append(f"Provides-Extra: {extra}")
        for need in needs:
            name, _, condition = need.partition("; ")
            only = f"{condition} and extra" if condition else "extra"
            # librds is in each of these wheels
            lines += [] if name == "librds" else [f"Requires-Dist: {name}; {only} == '{extra}'"]
    readme = (HERE / project["readme"]).read_text(encoding="utf-8") if "readme" in project else ""
    return "\n".join([*lines, "Description-Content-Type: text/markdown", "", readme])


def sources_of(folder: Path) -> Dict[str, bytes]:
    """The files of a package, with names from the folder above."""
    paths = sorted(path for path in folder.rglob("*.*") if path.is_file() and path.suffix != ".pyc")
    return {str(path.relative_to(folder.parent)): path.read_bytes() for path in paths}


def files_of(library: Path, project: Dict[str, Any], tag: str) -> Dict[str, bytes]:
    files = sources_of(HERE / "librds")
    files["librds/librds.so.0"] = library.read_bytes()
    name = project["name"].replace("-", "_")
    info = f"{name}-{project['version']}.dist-info"
    if "scripts" in project:
        files.update(sources_of(MONITOR / name))
        commands = "".join(f"{command} = {function}\n" for command, function in project["scripts"].items())
        files[f"{info}/entry_points.txt"] = f"[console_scripts]\n{commands}".encode()
    files[f"{info}/METADATA"] = metadata_of(project).encode()
    files[
        f"{info}/WHEEL"
    ] = f"Wheel-Version: 1.0\nGenerator: make_wheel.py\nRoot-Is-Purelib: false\nTag: {tag}\n".encode()
    lines = [f"{name},sha256={digest_of(data)},{len(data)}" for name, data in files.items()]
    files[f"{info}/RECORD"] = ("\n".join([*lines, f"{info}/RECORD,,"]) + "\n").encode()
    return files


def digest_of(data: bytes) -> str:
    return base64.urlsafe_b64encode(hashlib.sha256(data).digest()).rstrip(b"=").decode()


def main() -> int:
    if len(sys.argv) not in (3, 4) or sys.argv[3:] not in ([], ["--monitor"]):
        sys.exit("usage: make_wheel.py LIBRARY FOLDER [--monitor]")
    library, folder = Path(sys.argv[1]), Path(sys.argv[2])
    of = MONITOR if sys.argv[3:] else HERE
    project = tomllib.loads((of / "pyproject.toml").read_text(encoding="utf-8"))["project"]
    tag = f"py3-none-{platform_of(library)}"
    path = folder / f"{project['name'].replace('-', '_')}-{project['version']}-{tag}.whl"
    with zipfile.ZipFile(path, "w", zipfile.ZIP_DEFLATED) as wheel:
        for name, data in files_of(library, project, tag).items():
            entry = zipfile.ZipInfo(name)
            entry.external_attr = 0o100644 << 16
            entry.compress_type = zipfile.ZIP_DEFLATED
            wheel.writestr(entry, data)
    print(path)
    return 0


if __name__ == "__main__":
    sys.exit(main())
