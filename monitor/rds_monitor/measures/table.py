"""The rows of an input as a table with times: CSV with names of columns, or Parquet with numbers."""

import argparse
import importlib
from typing import Any, Dict, Iterator, Tuple

import numpy

from ..rows.clock import Clock, clock_of, clock_options, milliseconds, utc_texts
from ..rows.extent import Extent, write_table
from ..rows.heads import HEADER
from ..rows.inputs import input_options, open_input
from ..rows.items import Fault, Rows
from ..rows.listing import text_of


def options_table(parser: argparse.ArgumentParser) -> None:
    """The rows of a recording or listing as a table, with names of columns, the time in seconds from the start of the recording, and, with
    --start, UTC. In other rows than groups, type is the number of an acquired block.

    rds-monitor table --start 2026-03-29T00:30:00Z monday.bin > monday.csv
    rds-monitor table --parquet monday.parquet monday.bin"""
    input_options(parser)
    text = "write a Parquet file of numbers, named as in librds.ITEM"
    parser.add_argument("--parquet", metavar="FILE", help=text)
    clock_options(parser)


def run_table(arguments: argparse.Namespace) -> int:
    clock, extent = clock_of(arguments), Extent(open_input(arguments))
    if arguments.parquet is not None:
        return _write_parquet(arguments.parquet, extent, clock)
    names = ["event", "bit", *HEADER.decode("ascii").split(",")[2:], "time_s", *clock.names("time")]
    return write_table(names, (line for rows in extent.chunks() for line in csv_lines(rows, clock)))


def csv_lines(rows: Rows, clock: Clock) -> Iterator[Tuple[str, ...]]:
    columns = [text_of(rows).decode("ascii").splitlines(), milliseconds(rows["place"], clock.rate)]
    if clock.start is not None:
        columns.append(utc_texts(clock.start + rows["place"] / clock.rate))
    return zip(*columns)


def columns_of(rows: Rows, clock: Clock) -> Dict[str, Any]:
    """Arrays by the names of their columns, as pandas, polars and pyarrow take them."""
    columns: Dict[str, Any] = {name: numpy.ascontiguousarray(rows[name]) for name in rows.dtype.names or ()}
    seconds = rows["place"] / clock.rate
    columns["time_s"] = seconds
    if clock.start is not None:
        columns["time_utc"] = ((clock.start + seconds) * 1e6).astype("i8").astype("M8[us]")
    return columns


def _write_parquet(path: str, extent: Extent, clock: Clock) -> int:
    tables = (columns_of(rows, clock) for rows in extent.chunks())
    try:
        arrow: Any = importlib.import_module("pyarrow")
        parquet: Any = importlib.import_module("pyarrow.parquet")
    except ImportError:
        return _by_pandas(path, tables)
    writer: Any = None
    try:
        for table in map(arrow.table, tables):
            writer = writer or parquet.ParquetWriter(path, table.schema)
            writer.write_table(table)
    finally:
        if writer:
            writer.close()
    return 0


def _by_pandas(path: str, tables: Iterator[Dict[str, Any]]) -> int:
    """All rows at once: its other engine, fastparquet, writes whole frames."""
    try:
        pandas: Any = importlib.import_module("pandas")
        pandas.concat(map(pandas.DataFrame, tables), ignore_index=True).to_parquet(path)
    except ImportError:
        raise Fault("Parquet needs pyarrow, or python3-pandas and python3-fastparquet") from None
    return 0
