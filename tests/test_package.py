"""Completion and the Debian packages.

Completion is compared with the program's help. The packages are built, checked by lintian, installed in a root folder of their own, tried and
removed. docs/LIBRARY.md's first program in C is linked with both forms of the installed library, by pkg-config and by CMake, and run.
"""

from __future__ import annotations

import email
import fnmatch
import glob
import gzip
import io
import json
import os
import re
import shutil
import sys
import tarfile
import zipfile
from hashlib import sha1, sha256
from pathlib import Path
from typing import Any, Callable

import pytest
from packages import CC, SAMPLE, Packages, dated, files_below, made
from running import TOP, first_program, needs, run, said, wrote

COUNTS = "7691 valid, 1923 groups"
COMMANDS = ["scan", "list", "follow", "totals", "encode"]
Cases = Callable[[int], None]

# ---- completion


def options_of(rds: str, *words: str) -> list[str]:
    """The long options that help names."""
    text = said(rds, *words, "--help").split("\nOptions:\n")[1].split("\n\n")[0]
    return re.findall(r"^ *(?:-\w, )?(--[a-z-]+)", text, re.M)


def by_bash(*words: str) -> list[str]:
    """The completions of bash for the last word of the line."""
    script = '. completions/rds.bash; COMP_WORDS=("$@"); COMP_CWORD=$(($# - 1)); _rds; printf "%s\\n" "${COMPREPLY[@]}"'
    return sorted({*said("bash", "-c", script, "bash", *words, cwd=TOP).split()})


# What would show completion is replaced. An option is told as (THOSE THAT IT EXCLUDES)--NAME[WHAT IT IS]:VALUE.
ZSH = """
    _arguments() { print -l -- "$@" }
    _describe() { print -l -- "${(P@)4}" | sed "s/:.*//" }
    functions[_rds]=$(<completions/_rds)
    words=("$@")
    CURRENT=$#
    _rds"""


def by_zsh(*words: str) -> list[str]:
    """The commands and long options that zsh is told to offer for the last word of the line."""
    needs("zsh")
    lines = wrote("zsh", "-fc", ZSH, "zsh", *words, cwd=TOP).decode().splitlines()
    names = [re.sub(r"^\([^)]*\)|\[.*", "", line) for line in lines]
    return sorted({name for name in names if re.fullmatch("(--)?[a-z][a-z-]*", name)})


@pytest.mark.parametrize("shell", [by_bash, by_zsh])
@pytest.mark.parametrize("words", ["", "help", *COMMANDS])
def test_completion(rds: str, shell: Callable[..., list[str]], words: str) -> None:
    wanted = COMMANDS if words == "help" else options_of(rds, *words.split())
    wanted = wanted + COMMANDS + ["help"] if not words else wanted
    assert shell("rds", *words.split(), "") == sorted({*wanted})


def test_commands_of_the_help(rds: str) -> None:
    text = said(rds, "--help").split("Commands:")[1].split("\n\n")[0]
    assert re.findall(r"^  ([a-z]+)  ", text, re.M) == [*COMMANDS, "help"]


# The numbers of options that take few. Of threads, those of usual machines.
VALUES = {"--burst": range(6), "--reach": range(1, 9), "--workers": (1, 2, 4, 8, 16)}
# Options that are ignored or refused beside another, and are not offered then.
APART = {"--loss": "--share --of", "--share": "--loss", "--of": "--loss", "--soft": "--hex --burst"}
VALUED = "--bits --gaps --burst --reach --loss --share --of --pieces --workers --margin".split()


def entries_of(rds: str, command: str) -> dict[str, str]:
    """The help's words of each option, in one line."""
    text = said(rds, command, "--help").split("\nOptions:\n")[1].split("\n\n")[0]
    entries = re.split(r"\n(?=  +-)", f"\n{text}")[1:]
    parted = (re.match(r" *(?:-\w, )?(--[a-z]+)(?: <\w+>)?\s+([\s\S]*)", entry) for entry in entries)
    return {entry[1]: " ".join(entry[2].split()) for entry in parted if entry}


@pytest.mark.parametrize("command", COMMANDS)
def test_what_zsh_shows(rds: str, command: str, cases: Cases) -> None:
    """Of each option the help's words, the numbers that it takes, and those beside which it is not offered."""
    needs("zsh")
    lines = wrote("zsh", "-fc", ZSH, "zsh", "rds", command, "", cwd=TOP).decode().splitlines()
    parted = [
        re.fullmatch(r"(?:\(([^)]*)\))?(-[a-z-]+)\[([^]]*)\](?::([^:]*))?(?::\(([^)]*)\))?", line)
        for line in lines[1:]
        if line != "-s"
    ]
    help_, entries = [], entries_of(rds, command)
    for found in parted:
        assert found, lines
        apart, name, words, what, values = found.groups(default="")
        if name in ("-h", "--help"):
            help_.append((apart, name, words))
            continue
        entry = entries[name][0].lower() + entries[name][1:]
        assert entry.startswith(words) or f": {words}" in entry, (words, entry)
        assert apart == APART.get(name, "") and bool(what) == (name in VALUED), found[0]
        assert values == " ".join(map(str, VALUES.get(name, ()))), found[0]
    assert help_ == [("-h --help", "-h", "print help"), ("-h --help", "--help", "print help")]
    cases(len(parted))


def test_which_word_zsh_completes(cases: Cases) -> None:
    """Of those after `rds`, since each command has options of its own. A command whose word is not ended has none yet. No variable stays."""
    needs("zsh")
    script = "setopt warn_create_global" + ZSH.replace('print -l -- "$@"', "print -- $CURRENT $words", 1)
    for command in COMMANDS:
        done = run("zsh", "-fc", script, "zsh", "rds", command, "--x", "", cwd=TOP)
        assert done == (0, f"3 {command} --x\n".encode(), b"")
        assert by_zsh("rds", command) == by_zsh("rds", "")
    cases(len(COMMANDS))


def test_options_that_exclude_each_other(rds: str, cases: Cases) -> None:
    for words in (["--loss", "3", "--share", "3"], ["--loss", "3", "--of", "3"]):
        assert b"ignored" in run(rds, "list", *words).err
    cases(2)


def test_what_zsh_shows_of_commands(rds: str, cases: Cases) -> None:
    told = (
        wrote("zsh", "-fc", ZSH.replace(' | sed "s/:.*//"', ""), "zsh", "rds", "", cwd=TOP)
        .decode()
        .splitlines()
    )
    listed = re.findall(
        r"^  ([a-z]+)  +(.)(.*)$", said(rds, "--help").split("Commands:")[1].split("\n\n")[0], re.M
    )
    wanted = [f"{name}:{first.lower()}{rest}" for name, first, rest in listed if name != "help"]
    assert (
        told[: len(wanted)] == wanted
        and told[len(wanted)] == "help:print help, of the program or of a command"
    )
    version = [f"(-V --version){name}[print the name and version]" for name in ("-V", "--version")]
    assert told[-2:] == version and "(-h --help)--help[print help]" in told
    cases(len(told))


@pytest.mark.parametrize("command", ["list", "scan", "follow", "totals"])
def test_numbers_that_bash_offers(command: str, cases: Cases) -> None:
    for name in VALUED:
        wanted = sorted(map(str, VALUES.get(name, ())))
        assert by_bash("rds", command, name, "") == wanted, name
    assert by_bash("rds", command, "--progress", "--bi") == ["--bits"]
    assert by_bash("rds", command, "--workers", "1") == ["1", "16"]
    cases(len(VALUED) + 2)


def test_completion_of_a_word(cases: Cases) -> None:
    cases(4)
    assert by_bash("rds", "list", "--sh") == ["--share"]
    assert by_bash("rds", "en") == ["encode"] and by_bash("rds", "help", "f") == ["follow"]
    assert said("bash", "-c", ". completions/rds.bash; complete -p rds", cwd=TOP) == "complete -F _rds rds"
    assert (TOP / "completions/_rds").read_text().startswith("#compdef rds\n")


# ---- the packages

of_packages = pytest.mark.xdist_group("packages")


@of_packages
def test_names_of_packages(packages: Packages) -> None:
    libraries = ["librds0-dbgsym", "librds0", "librds-dev"]
    names = [f"{name}:{arch}" for arch in ["amd64", *["arm64"] * bool(packages.arm64)] for name in libraries]
    names += ["python3-librds:all", "rds-monitor:all", "rds:amd64"]
    wanted = [f"{name.split(':')[0]}_{packages.version}_{name.split(':')[1]}.deb" for name in names]
    assert packages.files == [packages.folder / name for name in wanted]


def newest_libc(path: str) -> str:
    """The newest version of the C library that a file calls."""
    found = re.findall(r"GLIBC_([0-9.]+)", said("readelf", "-V", path))
    return max(found, key=lambda version: [int(number) for number in version.split(".")])


RECORDINGS = "Radio Data System (RDS, IEC 62106) recordings"
DESCRIPTIONS = f"""\
librds-dev: decoder of {RECORDINGS}, development files
 The header, the static library, manual pages, examples, and the files for
 pkg-config and CMake, for programs in C and C++.

librds0: decoder of {RECORDINGS}, shared library
 Decodes demodulated RDS bits into sync acquisitions, groups with their
 corrected and uncorrectable blocks, and sync losses. It encodes groups, too.
 The decoder's code is proved to meet its definitions.

librds0-dbgsym: debug symbols for librds0

python3-librds: decoder of {RECORDINGS}, Python module
 The module librds decodes recordings and live streams of RDS bits, into
 Python values or numpy arrays.

rds: decoder of {RECORDINGS}
 Decodes demodulated RDS bits into a listing: sync acquisitions, groups with
 their corrected and uncorrectable blocks, sync losses and totals, from files
 or live. It encodes groups, too.
 .
 The program needs a processor with SSE4.2 and POPCNT (x86-64-v2).

rds-monitor: tables, databases and alarms from {RECORDINGS}
 Says what a station sent and how well it was received: block errors,
 outages, contents, SQLite, JSON, a check for monitoring systems. It turns an
 FM multiplex or IQ samples into RDS bits."""


@of_packages
def test_fields_of_packages(packages: Packages, cases: Cases) -> None:
    cases(3)
    settings = (TOP / "bindings/python/pyproject.toml").read_text()
    python = re.findall(r'^requires-python = ">=(.*)"$', settings, re.M)[0]
    form = "${Package}, ${Section}, ${Multi-Arch}: ${Depends}; ${Recommends}\n"
    show, version = ["dpkg-deb", "--show", f"--showformat={form}"], packages.version
    fields = {said(*show, path).strip().removesuffix(";") for path in packages.files}
    assert fields == {
        f"librds-dev, libdevel, same: librds0 (= {version})",
        f"librds0, libs, same: libc6 (>= {newest_libc(packages.librds + '/librds.so.0')})",
        f"librds0-dbgsym, debug, no: librds0 (= {version})",
        f"python3-librds, python, no: python3 (>= {python}), librds0 (>= {version}); python3-numpy",
        f"rds, hamradio, no: libc6 (>= {newest_libc(packages.rds)}); rds-monitor",
        f"rds-monitor, hamradio, no: python3 (>= {python}), python3-numpy, python3-librds (= {version}) | rds (= {version}); rds, libjs-d3, python3-jinja2",
    }
    suggested = "parallel python3-pandas python3-pyfftw python3-scipy python3-soundfile python3-tomli python3-zstandard rtl-sdr"
    common = [
        "dpkg-deb",
        "--show",
        "--showformat=${Maintainer}, ${Priority}, ${source:Package}: ${Suggests}\n",
    ]
    maintainer = "Paxolidu maintainers <maintainers@users.noreply.paxolidu.example>, optional, rds:"
    assert {said(*common, path) for path in packages.files} == {
        f"{maintainer} ",
        f"{maintainer} {', '.join(suggested.split())}",
    }
    described = {
        said("dpkg-deb", "--show", "--showformat=${Package}: ${Description}", path) for path in packages.files
    }
    assert described == {*DESCRIPTIONS.split("\n\n")}
    for path in packages.files:
        rows = [line.split() for line in said("dpkg-deb", "--contents", path).splitlines()]
        # in KiB, by deb-substvars(5): of files rounded up, and 1 of others
        kib = [-(-int(row[2]) // 1024) if row[0][0] == "-" else 1 for row in rows if row[5] != "./"]
        assert int(said("dpkg-deb", "--field", path, "Installed-Size")) == sum(kib)
    pages = (TOP / "README.md").read_text()
    assert {*re.findall("x86-64-v[0-9]", DESCRIPTIONS)} == {*re.findall("x86-64-v[0-9]", pages)}


@of_packages
def test_packages_are_the_same_again(packages: Packages, tmp_path: Path) -> None:
    """Made of links, from another folder, by files that are for their owner alone, and by the date of the last commit. No other file stays."""
    links = {name: tmp_path / name for name in ("rds", "librds")}
    for name, to in {"rds": packages.rds, "librds": packages.librds}.items():
        links[name].symlink_to(to)
    for name in ("made", "temporary"):
        (tmp_path / name).mkdir()
    variables = {**os.environ, "PATH": dated_by_git(tmp_path / "tools"), "TMPDIR": f"{tmp_path}/temporary"}
    variables |= {"MAKEFLAGS": "n", "MAKELEVEL": "1"}
    variables.pop("SOURCE_DATE_EPOCH", None)
    how: dict[str, Any] = {"cwd": tmp_path, "env": variables, "umask": 0o077}
    again = made(str(links["rds"]), str(links["librds"]), tmp_path / "made", packages.arm64, **how)
    assert [*(tmp_path / "temporary").iterdir()] == []
    sums = [
        {path.name: sha256(path.read_bytes()).hexdigest() for path in files}
        for files in (again, packages.files)
    ]
    assert sums[0] == sums[1]


@of_packages
def test_installed_files(packages: Packages, cases: Cases) -> None:
    cases(9)
    listed = [wrote("dpkg-deb", "--contents", path).decode().splitlines() for path in packages.installed]
    names = [re.sub(r".* \./|( -> .*)$", "/", line) for lines in listed for line in lines if line[0] != "d"]
    assert sorted(name.rstrip("/") for name in names) == packages.there()
    assert "/usr/lib/systemd/system/rds-monitor-watch.service" in packages.there()
    libdir, share = packages.libdir, "/usr/share"
    folders = f"""/usr/bin /usr/include /usr/lib/debug/.build-id/ID /usr/lib/python3/dist-packages/librds
        /usr/lib/systemd/system /usr/lib/sysusers.d {libdir} {libdir}/cmake/rds {libdir}/pkgconfig
        {share}/bash-completion/completions {share}/doc {share}/doc/librds0 {share}/doc/librds-dev
        {share}/doc/librds-dev/examples {share}/doc/python3-librds {share}/doc/rds {share}/doc/rds/docs
        {share}/doc/rds-monitor {share}/doc/rds-monitor/examples {share}/man/man1 {share}/man/man3
        {share}/rds/examples {share}/zsh/vendor-completions""".split()
    found = {re.sub(r"(build-id/)..$", r"\1ID", os.path.dirname(path)) for path in packages.there()}
    monitor = {folder for folder in found if folder.startswith(f"{share}/rds-monitor/")}
    files = (
        path for path in (TOP / "monitor/rds_monitor").rglob("[!_]*.*") if "__pycache__" not in path.parts
    )
    sources = {path.parent.relative_to(TOP / "monitor") for path in files}
    assert found - monitor == {*folders} and monitor == {f"{share}/rds-monitor/{path}" for path in sources}
    library = """cmake/rds/rds-config-version.cmake cmake/rds/rds-config.cmake librds.a librds.so librds.so.0
        pkgconfig/rds.pc""".split()
    owned = [path for path in packages.there() if path.startswith((f"{libdir}/", "/usr/include/"))]
    assert owned == ["/usr/include/rds.h", *(f"{libdir}/{name}" for name in library)]
    # what dpkg runs, and what the loader is told
    control = packages.root / "var/lib/dpkg/info"
    for name in ("postinst", "prerm"):
        script = TOP / f"packaging/rds-monitor.{name}"
        assert (control / script.name).read_bytes() == script.read_bytes()
        assert os.access(control / script.name, os.X_OK)
    told = {kind: [*control.glob(f"librds0*.{kind}")] for kind in ("triggers", "shlibs", "symbols")}
    texts = {kind: paths[0].read_text().splitlines()[0] for kind, paths in told.items()}
    assert texts["triggers"] == "activate-noawait ldconfig" and texts["symbols"].startswith("librds.so.0 ")
    assert texts["shlibs"] == f"librds 0 librds0 (>= {packages.version.rpartition('-')[0]})"


INSTALLED = """packaging/* bindings/c/* examples/* completions/* docs/*.md rds.1 README.md CHANGELOG.md lib/rds.h monitor/WATCHING.md
    monitor/rds-monitor monitor/rds_monitor/*.py monitor/rds_monitor/*/*.* bindings/python/librds/*.py bindings/python/librds/py.typed"""


@of_packages
def test_files_that_no_package_has(packages: Packages, tmp_path: Path) -> None:
    said("/usr/bin/python3", TOP / "packaging/make_pages.py", tmp_path, env=dated())
    small = (path for path in packages.root.rglob("*") if path.is_file() and path.stat().st_size < 2**20)
    read = {".gz": lambda path: gzip.decompress(path.read_bytes())}
    held = {read.get(path.suffix, Path.read_bytes)(path) for path in small}
    files = {Path(path) for pattern in INSTALLED.split() for path in glob.glob(f"{TOP}/{pattern}")}
    files = {path for path in files if "__pycache__" not in path.parts}
    files.update(tmp_path.iterdir())
    missing = {path for path in files if path.is_file() and path.read_bytes() not in held}
    pages = {f"docs/{name}.md" for name in "ARCHITECTURE CHANGING DECISIONS MODEL PROOFS TESTING".split()}
    others = {f"packaging/{name}" for name in "Containerfile make_deb.sh make_dist.py make_pages.py".split()}
    assert {str(path.relative_to(TOP)) for path in missing} == pages | others


@of_packages
def test_changed_file_is_found(packages: Packages, cases: Cases) -> None:
    cases(2)
    assert packages.differing() == []
    path = packages.root / "usr/share/rds/examples/gaps.sh"
    text = path.read_text()
    path.write_text(text + "\n")
    assert packages.differing() == ["/usr/share/rds/examples/gaps.sh"]
    path.write_text(text)


@of_packages
def test_installed_program(packages: Packages, cases: Cases) -> None:
    cases(3)
    share = packages.root / "usr/share"
    programs = (packages.root / "usr/bin/rds", packages.rds)
    assert len({wrote(program, "list", data=SAMPLE) for program in programs}) == 1
    assert gzip.decompress((share / "man/man1/rds.1.gz").read_bytes()) == (TOP / "rds.1").read_bytes()
    assert said(share / "rds/examples/gaps.sh", data=b"104 1\n") == "--gaps=104-105"


@of_packages
def test_symbols_of_the_library(packages: Packages, cases: Cases) -> None:
    cases(3)
    path = f"{packages.root}{packages.libdir}/librds.so.0"
    assert ".debug_" not in said("readelf", "-S", path)
    build = re.findall(r"Build ID: (..)(\w+)", said("readelf", "-n", path))[0]
    assert f"/usr/lib/debug/.build-id/{build[0]}/{build[1]}.debug" in packages.there()
    # bound when it is loaded
    assert re.findall("BIND_NOW|Flags: NOW", said("readelf", "-d", path)) == ["BIND_NOW", "Flags: NOW"]


@of_packages
def test_versions_of_symbols(packages: Packages, tmp_path: Path) -> None:
    """Each symbol has the version of its node, and a program needs the newest of those that it calls."""
    (file,) = (path for path in packages.installed if path.name.startswith("librds0_"))
    wrote("dpkg-deb", "--raw-extract", file, tmp_path / "librds0")
    symbols = (tmp_path / "librds0/DEBIAN/symbols").read_text().splitlines()
    names = said("nm", "-D", f"{packages.librds}/librds.so.0")
    shown = re.findall(r" [TA] ([\w.]+)(?:@@(\S+))?$", names, re.M)
    versions = {f" {name}@{node or name} {(node or name)[4:]}" for name, node in shown}
    assert symbols[0] == "librds.so.0 librds0 #MINVER#" and {*symbols[1:]} == versions
    (tmp_path / "debian").mkdir()
    (tmp_path / "debian/control").write_text("Source: readme\n\nPackage: readme\nArchitecture: any\n")
    folders = [f"-I{packages.root}/usr/include", f"-L{packages.root}{packages.libdir}"]
    words = ["dpkg-shlibdeps", "-O", f"-S{tmp_path}/librds0", packages.program(tmp_path, *folders, "-lrds")]
    assert "librds0 (>= 0.2)" in said(*words, cwd=tmp_path)


@of_packages
def test_program_by_pkg_config(packages: Packages, tmp_path: Path, cases: Cases) -> None:
    cases(2)
    needs("pkg-config")
    root, libdir = str(packages.root), f"{packages.root}{packages.libdir}"
    names = {"PKG_CONFIG_SYSROOT_DIR": root, "PKG_CONFIG_LIBDIR": f"{libdir}/pkgconfig"}
    kept = {"PKG_CONFIG_ALLOW_SYSTEM_CFLAGS": "1", "PKG_CONFIG_ALLOW_SYSTEM_LIBS": "1"}
    found = said("pkg-config", "--cflags", "--libs", "rds", env={**os.environ, **names, **kept}).split()
    program = packages.program(tmp_path, *found)
    assert f"librds.so.0 => {libdir}/librds.so.0 " in packages.run_program("ldd", program)
    assert packages.run_program(program) == COUNTS


@of_packages
def test_python_of_the_packages(packages: Packages, tmp_path: Path, cases: Cases) -> None:
    cases(2)
    (tmp_path / "first.py").write_text(first_program("python"))
    assert packages.run_program(sys.executable, tmp_path / "first.py") == COUNTS
    packages.run_program(packages.root / "usr/bin/rds-monitor", "errors", TOP / "examples/station.bin")


CMAKE = """
cmake_minimum_required(VERSION 3.19)
project(readme C)
set(folder "${rds_DIR}")
foreach(other 0.2.1 0.3 1.0 0.3...1 0.1...<0.2 0.1...0.1.9)
  find_package(rds ${other} QUIET)
  if(rds_FOUND)
    message(FATAL_ERROR "found for ${other}")
  endif()
  set(rds_DIR "${folder}" CACHE PATH "" FORCE)
endforeach()
foreach(other 0.1 0.1...0.2 0.2...<1)
  find_package(rds ${other} REQUIRED)
endforeach()
find_package(rds 0.2 REQUIRED)
find_package(rds 0.2.0 EXACT REQUIRED)
get_target_property(kind rds::static TYPE)
if(NOT rds_VERSION VERSION_EQUAL 0.2 OR NOT kind STREQUAL "STATIC_LIBRARY" OR DEFINED _rds_libdir OR DEFINED _rds_includedir)
  message(FATAL_ERROR "version ${rds_VERSION}, ${kind}, ${_rds_libdir} ${_rds_includedir}")
endif()
foreach(kind static rds)
  add_executable(${kind} first.c)
  target_link_libraries(${kind} rds::${kind})
endforeach()
"""


@of_packages
def test_programs_by_cmake(packages: Packages, tmp_path: Path, cases: Cases) -> None:
    cases(2)
    needs("cmake")
    (tmp_path / "first.c").write_text(first_program("c"))
    (tmp_path / "CMakeLists.txt").write_text(CMAKE)
    # the folders of the packages are not where they were made for, and are reached by a link, as Debian has /lib
    (tmp_path / "lib").symlink_to(packages.root / "usr/lib")
    folder = f"{tmp_path}{packages.libdir.removeprefix('/usr')}/cmake/rds"
    wrote("cmake", "-S", tmp_path, "-B", tmp_path / "made", f"-Drds_DIR={folder}", timeout=300)
    wrote("cmake", "--build", tmp_path / "made", timeout=300)
    assert [packages.run_program(tmp_path / "made" / kind) for kind in ("static", "rds")] == [COUNTS, COUNTS]


def test_copyright() -> None:
    """Two paragraphs of https://www.debian.org/doc/packaging-manuals/copyright-format/1.0/: nobody has a right but the authors."""
    texts = (TOP / "packaging/copyright").read_text().split("\n\n")
    told = [
        {key: " ".join(text.split()) for key, text in email.message_from_string(one).items()} for one in texts
    ]
    no_licence = "No licence has been given to this project yet."
    assert told == [
        {
            "Format": "https://www.debian.org/doc/packaging-manuals/copyright-format/1.0/",
            "Upstream-Name": "rds",
            "Comment": f"{no_licence} Until one is, all rights are reserved by those who wrote it, and this package is for their "
            "own use: nobody else may copy, change or pass it on.",
        },
        {
            "Files": "*",
            "Copyright": "2026 the authors of rds",
            "License": f"none-yet {no_licence} All rights are reserved.",
        },
    ]


# the last of them: it removes the packages of the others
@of_packages
def test_lintian(packages: Packages) -> None:
    words = ["lintian", "--allow-root", "--tag-display-limit", "0"]
    text = run(*words, *packages.files, timeout=300).out.decode()
    # an upload to Debian closes a bug
    assert {*re.findall(r"^[EW]: .*?: (\S+)", text, re.M)} == {"initial-upload-closes-no-bugs"}


@of_packages
def test_nothing_is_left_of_removed_packages(packages: Packages) -> None:
    packages.dpkg("--purge", *"rds rds-monitor python3-librds librds-dev librds0-dbgsym librds0".split())
    assert packages.there() == [] and not (packages.root / "usr").exists()


def test_install_and_uninstall(rds: str, librds: str, tmp_path: Path, cases: Cases) -> None:
    """Below a folder with a blank in its name. What others have there stays."""
    cases(5)
    root = tmp_path / "a root"
    other = root / "usr/share/man/man3/other.3"
    other.parent.mkdir(parents=True)
    other.touch()
    names = [f"PROGRAM={rds}", f"LIBRARY={librds}", f"DESTDIR={root}", "PREFIX=/usr"]
    wrote("make", "-s", "install", "install-lib", *names, cwd=TOP, timeout=300)
    there = files_below(root)
    assert {"usr/bin/rds", "usr/bin/rds-monitor", "usr/include/rds.h", "usr/lib/librds.so"} <= there
    assert {*map(str, root.rglob("*.3"))} >= {str(root / "usr/share/man/man3/rds_push.3")}
    completions = {"usr/share/bash-completion/completions/rds", "usr/share/zsh/site-functions/_rds"}
    scripts = {f"usr/share/rds/examples/{path.name}" for path in (TOP / "examples").glob("*.sh")}
    programs = {"usr/bin/rds", "usr/bin/rds-monitor", "usr/lib/librds.so", "usr/lib/librds.so.0"}
    assert {path for path in there if os.access(root / path, os.X_OK)} == programs | scripts
    assert completions | {"usr/share/man/man1/rds.1", "usr/share/rds/examples/station.bin"} <= there
    wrote("make", "-s", "uninstall", *names[2:], cwd=TOP, timeout=300)
    assert files_below(root) == {"usr/share/man/man3/other.3"}
    assert [path for path in root.rglob("*rds*")] == []
    refused = run("make", "-s", "install-lib", *names[:3], "PREFIX=/a prefix", cwd=TOP)
    assert b"are folders without blanks" in refused.err
    assert files_below(root) == {"usr/share/man/man3/other.3"}


def test_make_deb(rds: str, librds: str) -> None:
    names = [f"PROGRAM={rds}", f"LIBRARY={librds}", f"FOLDER_arm64={librds}"]
    words = ["make", "--no-print-directory", "-n", "-o", f"{librds}/librds.so.0", "deb", *names]
    text = said(*words, cwd=TOP, env={**os.environ, "MAKEFLAGS": ""})
    assert text.splitlines()[-1] == f"packaging/make_deb.sh {rds} {librds} build {librds}"


# ---- a release

LINE = "rattle-kit-13f logic dac8208d650f15bf"
WITHOUT_RT = {**os.environ, "RT": "/none/rt", "MAKEFLAGS": "", "SOURCE_DATE_EPOCH": "1700000000"}


@pytest.fixture(scope="session")
def copied(tmp_path_factory: Any) -> Path:
    """The tree in another folder, in which nothing is built."""
    to = tmp_path_factory.mktemp("copied") / "rds"
    names = ["build", ".git", "out", "__pycache__", "must-fail", "target"]
    return Path(shutil.copytree(TOP, to, ignore=shutil.ignore_patterns(*names)))


def distributed(top: Path, rds: str, librds: str, folder: Path, **variables: str) -> Path:
    folder.mkdir()
    words = [top / "packaging/make_dist.py", rds, librds, folder, LINE]
    return Path(said(*words, cwd=folder, env={**WITHOUT_RT, **variables}, timeout=300))


def dated_by_git(folder: Path) -> str:
    """A PATH on which the last commit is of the date of the other packages."""
    folder.mkdir()
    (folder / "git").write_text('#!/bin/sh\n[ "$*" = "log -1 --format=%ct" ] && echo 1700000000\n')
    (folder / "git").chmod(0o755)
    return f"{folder}:{os.environ['PATH']}"


@pytest.fixture(scope="session")
def release(rds: str, librds: str, copied: Path, tmp_path_factory: Any) -> Path:
    """The unpacked tarball, which is the same made of the tree in another folder, by a make, and by the date of the last commit."""
    zstandard = pytest.importorskip("zstandard")
    folder = tmp_path_factory.mktemp("release")
    made_here = distributed(TOP, rds, librds, folder / "one")
    other = {"PATH": dated_by_git(folder / "tools"), "SOURCE_DATE_EPOCH": "", "MAKEFLAGS": "n"}
    again = distributed(copied, rds, librds, folder / "other", **other)
    assert made_here.read_bytes() == again.read_bytes() and made_here.name == again.name
    assert [*copied.rglob("__pycache__")] == []
    packed = zstandard.decompress(made_here.read_bytes())
    with tarfile.open(fileobj=io.BytesIO(packed)) as tar:
        entries = tar.getmembers()
    assert len({one.name for one in entries}) == len(entries)
    owners = {(one.uid, one.gid, one.uname, one.gname, one.mtime) for one in entries}
    assert owners == {(0, 0, "root", "root", 1700000000)}
    assert {(one.mode, one.isdir()) for one in entries} == {(0o755, True), (0o755, False), (0o644, False)}
    wrote("tar", "-x", "-C", folder, data=packed)
    return folder / made_here.name.removesuffix(".tar.zst")


of_release = pytest.mark.xdist_group("release")
LINK = re.compile(r"\]\(([^)#\s]+)")


# Below share, with how each begins.
RELEASED = {
    "man/man1/rds.1": ".Dd",
    "man/man1/rds-monitor.1": '.TH RDS-MONITOR 1 2023-11-14 "rds-monitor ',
    "bash-completion/completions/rds": "# Completion of rds for bash",
    "bash-completion/completions/rds-monitor": "# AUTOMAT",
    "zsh/site-functions/_rds": "#compdef rds\n",
    "zsh/site-functions/_rds-monitor": "#compdef rds-monitor\n",
}


@of_release
def test_files_of_a_release(release: Path, rds: str, cases: Cases) -> None:
    cases(10)
    version = said(rds, "--version").removeprefix("rds ")
    assert release.name == f"rds-{version}-x86_64" and (release / "TOOLCHAIN").read_text() == f"{LINE}\n"
    there = files_below(release)
    wrote("sha256sum", "--check", "--strict", "SHA256SUMS", cwd=release)
    sums = (line.split("  ") for line in (release / "SHA256SUMS").read_text().splitlines())
    summed = {name: value for value, name in sums}
    assert {*summed} == there - {"SHA256SUMS", "lib/librds.so", "examples"}
    for name, begin in RELEASED.items():
        assert (release / "share" / name).read_text().startswith(begin), name
    bill = json.loads(text := (release / "sbom.spdx.json").read_text())
    assert text == json.dumps(bill, indent=1) + "\n"
    told = {entry["fileName"][2:]: entry["checksums"] for entry in bill["files"]}
    assert {*told} == {*summed} - {"sbom.spdx.json"}
    assert all({"algorithm": "SHA256", "checksumValue": summed[name]} in told[name] for name in told)
    # nothing is said of licences, by clauses 7 and 8 of SPDX 2.3
    said_of_files = dict.fromkeys(("licenseConcluded", "copyrightText"), "NOASSERTION")
    said_of_packages = {**said_of_files, "licenseDeclared": "NOASSERTION", "downloadLocation": "NOASSERTION"}
    assert all(said_of_packages.items() <= entry.items() for entry in bill["packages"])
    assert all(said_of_files.items() <= entry.items() for entry in bill["files"])
    ids = ["SPDXRef-DOCUMENT", *(entry["SPDXID"] for entry in bill["packages"] + bill["files"])]
    head = [bill[name] for name in ("spdxVersion", "dataLicense", "SPDXID")]
    assert len({*ids}) == len(ids) and head == ["SPDX-2.3", "CC0-1.0", ids[0]]
    ends = {row[end] for row in bill["relationships"] for end in ("spdxElementId", "relatedSpdxElement")}
    assert ends == {*ids}
    related = [
        tuple(
            row[key].removeprefix("SPDXRef-")
            for key in ("spdxElementId", "relationshipType", "relatedSpdxElement")
        )
        for row in bill["relationships"]
    ]
    linked = [("rds", "STATIC_LINK", name) for name in "atomic_table clap csv hex itoa thiserror".split()]
    needed = [("rds", "DEPENDS_ON", "glibc"), ("rds", "DEPENDS_ON", "python3-numpy")]
    of_rds = [("DOCUMENT", "DESCRIBES", "rds"), ("rattle", "BUILD_TOOL_OF", "rds"), *linked, *needed]
    held = [("rds", "CONTAINS", entry["SPDXID"].removeprefix("SPDXRef-")) for entry in bill["files"]]
    assert related == [*of_rds[:2], *held, *of_rds[2:]]
    creation = {"created": "2023-11-14T22:13:20Z", "creators": ["Tool: make_dist.py"]}
    assert bill["creationInfo"] == creation and bill["name"] == release.name
    versions = [
        (entry["name"], entry.get("versionInfo"), entry["filesAnalyzed"]) for entry in bill["packages"]
    ]
    others = [(name, LINE, False) for _, _, name in linked] + [(name, None, False) for _, _, name in needed]
    assert versions == [("rds", version, True), ("rattle", LINE, False), *others]
    # by SPDX 2.3, clause 7.9
    first = sorted(
        row["checksumValue"]
        for entry in bill["files"]
        for row in entry["checksums"]
        if row["algorithm"] == "SHA1"
    )
    code = bill["packages"][0]["packageVerificationCode"]["packageVerificationCodeValue"]
    assert code == sha1("".join(first).encode()).hexdigest()
    assert bill["documentNamespace"].endswith(f"/{release.name}-{code}")
    assert told["bin/rds"][0] == {
        "algorithm": "SHA1",
        "checksumValue": sha1((release / "bin/rds").read_bytes()).hexdigest(),
    }


@of_release
def test_needs_of_the_wheel_of_a_release(release: Path) -> None:
    """Those of monitor/pyproject.toml but librds, which is in it."""
    (wheel,) = release.glob("rds_monitor-*.whl")
    with zipfile.ZipFile(wheel) as packed:
        (name,) = (name for name in packed.namelist() if name.endswith("/METADATA"))
        says = email.message_from_bytes(packed.read(name))
    needs_of = {"captures": ["pyfftw"], "parquet": ["pandas", "pyarrow"], "report": ["jinja2"]}
    wanted = [f"{need}; extra == '{extra}'" for extra, needed in needs_of.items() for need in needed]
    tomli = "tomli; python_version < '3.11' and extra == 'watch'"
    assert says.get_all("Requires-Dist") == ["numpy", *wanted, tomli]
    assert says.get_all("Provides-Extra") == ["recordings", *needs_of, "watch"]
    assert says["Requires-Python"] == ">=3.9" and says["Name"] == "rds-monitor"


@of_release
def test_links_of_a_release(release: Path, cases: Cases) -> None:
    """Each relative link of each page leads to a file of the tarball, and each page of docs is there."""
    pages = sorted(release.rglob("*.md"))
    links = [(page, link) for page in pages for link in LINK.findall(page.read_text()) if "://" not in link]
    broken = [
        f"{page.relative_to(release)}: {link}" for page, link in links if not (page.parent / link).is_file()
    ]
    assert broken == []
    there = {path.name for path in (release / "docs").iterdir()}
    assert there >= {path.name for path in (TOP / "docs").iterdir()}
    assert {"README.md", "CHANGELOG.md"} <= {path.name for path in release.iterdir()}
    cases(3)


@of_release
def test_an_unpacked_release(release: Path, tmp_path: Path, cases: Cases) -> None:
    """Its program, both libraries and the wheel work where they were unpacked, with neither toolchain nor packages."""
    cases(4)
    needs("pkg-config")
    pytest.importorskip("pip")
    path = {**os.environ, "PATH": "/usr/bin:/bin", "RDS_LIBRARY": "", "RDS": "/none", "PKG_CONFIG_LIBDIR": ""}
    assert wrote(release / "bin/rds", "totals", data=SAMPLE).startswith(b"total,valid,7691,")
    path["PKG_CONFIG_PATH"] = f"{release}/lib/pkgconfig"
    (tmp_path / "first.c").write_text(first_program("c"))
    for kind in ("--libs", "--static"):
        found = said("pkg-config", "--cflags", "--libs", kind, "rds", env=path).split()
        wrote(CC, "-o", tmp_path / "program", tmp_path / "first.c", *found)
        assert said(tmp_path / "program", data=SAMPLE, env={"LD_LIBRARY_PATH": f"{release}/lib"}) == COUNTS
    (wheel,) = release.glob("rds_monitor-*.whl")
    words = "-m pip install --no-index --no-deps --quiet --disable-pip-version-check --target".split()
    wrote(sys.executable, *words, tmp_path / "python", wheel)
    path["PYTHONPATH"] = str(tmp_path / "python")
    monitor = [sys.executable, tmp_path / "python/bin/rds-monitor"]
    assert "\ndecoder: librds 0.2.0" in said(*monitor, "--version", env=path)
    assert "7691" in said(*monitor, "errors", "--every", 1000, data=SAMPLE, env=path)


@of_packages
def test_containerfile(packages: Packages, cases: Cases) -> None:
    """It is built and run where podman is. Its words are looked at in any case: each package that it names is one of `make dist`."""
    cases(2)
    text = (TOP / "packaging/Containerfile").read_text()
    names = [path.name for path in packages.files]
    copied = re.findall(r"^COPY (.*) /packages/$", text, re.M)[0].split()
    found = [fnmatch.filter(names, pattern) for pattern in copied]
    kinds = "librds0 python3-librds rds rds-monitor".split()
    assert [[name.split("_")[0] for name in one] for one in found] == [[kind] for kind in kinds]
    assert re.findall("^FROM (.*)$", text, re.M) == ["debian:bookworm-slim"]
    run_line = "apt-get update && apt-get install --yes --no-install-recommends /packages/*.deb && rm -rf /packages /var/lib/apt/lists/*"
    assert " ".join(re.findall(r"^RUN (.*\\\n.*)$", text, re.M)[0].replace("\\\n", "").split()) == run_line
    last = re.findall("^(?:USER|WORKDIR|CMD) .*$", text, re.M)
    assert last == ["USER nobody", "WORKDIR /data", 'CMD ["rds-monitor", "--help"]']
    if shutil.which("podman"):
        words = ["podman", "build", "-q", "-f", TOP / "packaging/Containerfile", packages.folder]
        image = said(*words, timeout=600)
        assert said("podman", "run", "--rm", "-i", image, "rds", "totals", data=SAMPLE).startswith(
            "total,valid,7691,"
        )
        assert "decoder: librds" in said("podman", "run", "--rm", image, "rds-monitor", "--version")


def test_what_was_built_is_used_without_the_toolchain(
    rds: str, librds: str, copied: Path, cases: Cases
) -> None:
    """Nothing is built anew; that it is older than the sources is said in one line."""
    cases(5)
    words = ["make", "-s", "--no-print-directory", f"DESTDIR={copied}/root", "PREFIX=/usr"]
    words.append("ZSH_COMPLETIONS=/usr/zsh")
    for target in ("all", "install", "install-lib", "deb", "dist"):
        refused = run(*words, target, cwd=copied, env=WITHOUT_RT)
        assert refused.status == 2 and re.search(
            b"^rds: there is no build/.* yet, and the Rattle toolchain is missing: .*LIBRARY=FOLDER",
            refused.err,
        )
    (copied / "build").mkdir()
    shutil.copy2(rds, copied / "build/rds")
    shutil.copytree(librds, copied / "build/lib", symlinks=True)
    for path in (copied / "build/rds", *(copied / "build/lib").iterdir()):
        os.utime(path, (0, 0), follow_symlinks=False)
    said_once = "build/{} is older than the sources, and is used as it is\n"
    both = [said_once.format("rds"), said_once.format("lib/librds.so.0")]
    for target, lines in {"install": both[:1], "install-lib": both[1:], "all": both, "lib": both[1:]}.items():
        done = run(*words, target, cwd=copied, env=WITHOUT_RT)
        assert (done.status, done.err.decode()) == (0, "".join(lines)), target
    assert (copied / "root/usr/bin/rds").read_bytes() == Path(rds).read_bytes()
    shutil.rmtree(copied / "build")


def test_a_release_that_cannot_be_made(rds: str, librds: str, tmp_path: Path, cases: Cases) -> None:
    """What is missing is named, the program first. A program that fails ends all."""
    pytest.importorskip("zstandard")
    (tmp_path / "strip").symlink_to("/bin/false")
    (tmp_path / "one").mkdir()
    (tmp_path / "one/librds.so.0").touch()
    usage, none = "usage: packaging/make_dist.py PROGRAM LIBRARY FOLDER TOOLCHAIN", tmp_path / "none"
    missing = "make_dist: there is no {}: `make` and `make lib` build it, or name another"
    faults = [
        ([rds, librds, tmp_path], usage),
        ([none, none, tmp_path, LINE], missing.format(none)),
        ([rds, none, tmp_path, LINE], missing.format(none / "librds.so.0")),
        ([rds, tmp_path / "one", tmp_path, LINE], missing.format(tmp_path / "one/librds.a")),
        (
            [rds, librds, tmp_path, ""],
            "make_dist: by which toolchain was it built? TOOLCHAIN='the line of rt version' says it",
        ),
        ([rds, librds, tmp_path, LINE], "make_dist: strip ended with status 1"),
    ]
    for words, fault in faults:
        variables = {**WITHOUT_RT, "PATH": f"{tmp_path}:{os.environ['PATH']}"}
        failed = run(TOP / "packaging/make_dist.py", *words, cwd=tmp_path, env=variables)
        assert failed == (1, b"", f"{fault}\n".encode())
    cases(len(faults))


def test_packages_that_cannot_be_made(rds: str, librds: str, tmp_path: Path, cases: Cases) -> None:
    cases(8)
    for kind in ("a", "so.0"):
        (tmp_path / kind).mkdir()
        (tmp_path / kind / f"librds.{kind}").touch()
    faults = {
        "examples is no program": ["examples", librds, tmp_path],
        "examples/README.md is no program": ["examples/README.md", librds, tmp_path],
        f"there is no library in {tmp_path}/a": [rds, tmp_path / "a", tmp_path],
        f"there is no library in {tmp_path}/so.0": [rds, librds, tmp_path, tmp_path / "so.0"],
        f"there is no folder {tmp_path}/none": [rds, librds, tmp_path / "none"],
    }
    for fault, words in faults.items():
        assert run(TOP / "packaging/make_deb.sh", *words, cwd=TOP).err.decode() == f"make_deb: {fault}\n"
    words = ["/bin/bash", TOP / "packaging/make_deb.sh", rds, librds, tmp_path]
    assert run(*words, cwd=TOP, env={"PATH": "/none"}).err == b"make_deb: there is no dpkg here\n"
    assert run(TOP / "packaging/make_deb.sh").status == 2
    # A program that fails ends all, and nothing is named.
    (tmp_path / "strip").symlink_to("/bin/false")
    failed = run(*words, cwd=TOP, env={**os.environ, "PATH": f"{tmp_path}:{os.environ['PATH']}"})
    assert failed == (1, b"", b"")
