"""The package's rooms: which may import which, no import cycles, and each class name once."""

from __future__ import annotations

import ast
import importlib.util
from collections import Counter
from pathlib import Path
from typing import Dict, List, Set

from conftest import TOP

PACKAGE = TOP / "monitor" / "rds_monitor"
# A room, and those below it that it may import; "" has the modules beside the rooms.
MAY_IMPORT = {
    "rows": set(),
    "content": {"rows"},
    "measures": {"rows"},
    "signal": {"rows"},
    "db": {"rows", "content", "measures"},
    "page": {"rows", "content", "measures", "db"},
    "capture": {"rows", "content", "signal", "page"},
    "watch": {"rows", "content", "measures", "db", "signal"},
    "": {"rows"},
}


def name_of(path: Path) -> str:
    name = ".".join(path.relative_to(PACKAGE.parent).with_suffix("").parts)
    return name[: -len(".__init__")] if name.endswith(".__init__") else name


TREES = {name_of(path): ast.parse(path.read_text()) for path in sorted(PACKAGE.rglob("*.py"))}


def imported_by(name: str) -> Set[str]:
    """The modules of the package that a module imports, anywhere in it."""
    package = (
        name if name in {name_of(path) for path in PACKAGE.rglob("__init__.py")} else name.rpartition(".")[0]
    )
    found: Set[str] = set()
    for node in ast.walk(TREES[name]):
        if isinstance(node, ast.ImportFrom):
            base = importlib.util.resolve_name("." * node.level + (node.module or ""), package)
            found |= {f"{base}.{one.name}" if f"{base}.{one.name}" in TREES else base for one in node.names}
        elif isinstance(node, ast.Import):
            found |= {one.name for one in node.names}
    return found & set(TREES) - {name}


GRAPH = {name: imported_by(name) for name in TREES}


def room_of(name: str) -> str:
    parts = name.split(".")
    return parts[1] if len(parts) > 1 and (PACKAGE / parts[1]).is_dir() else ""


def test_no_import_goes_round() -> None:
    left: Dict[str, Set[str]] = dict(GRAPH)
    while True:
        free = {name for name, below in left.items() if not below & set(left)}
        if not free:
            break
        left = {name: below for name, below in left.items() if name not in free}
    assert sorted(left) == []


def test_a_room_imports_only_those_below_it() -> None:
    strange: List[str] = []
    for name, below in GRAPH.items():
        room = room_of(name)
        strange += [
            f"{name} imports {one}" for one in below if room_of(one) not in {room, "", *MAY_IMPORT[room]}
        ]
        strange += [
            f"{name} imports {one}" for one in below if room and not room_of(one) and one != "rds_monitor"
        ]
    assert strange == []
    assert set(map(room_of, GRAPH)) == set(MAY_IMPORT)


def test_each_class_name_is_there_once() -> None:
    names = Counter(
        node.name for tree in TREES.values() for node in ast.walk(tree) if isinstance(node, ast.ClassDef)
    )
    assert [name for name, count in names.items() if count > 1] == []
