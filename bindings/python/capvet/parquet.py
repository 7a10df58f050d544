"""Where the rows of `python -m capvet vet` go: to standard output as text, or to a file as Parquet, by pyarrow."""

from __future__ import annotations

import json
from typing import Any, Callable, Iterable, List

from .vetting import Row


class TextRows:
    """Rows as text."""

    def __init__(self, put: Callable[[Iterable[str]], None]) -> None:
        self._put = put

    def __enter__(self) -> TextRows:
        return self

    def __exit__(self, *_: object) -> None:
        pass

    def put(self, rows: str) -> None:
        self._put([rows])


class ParquetRows:
    """Rows as Parquet. They come as JSON lines, and are written some thousands at a time."""

    _MOST = 1 << 16

    def __init__(self, name: str) -> None:
        import pyarrow
        import pyarrow.parquet
        text = ("file", "reason")
        self._table_of = pyarrow.Table.from_pylist
        self._schema = pyarrow.schema([(name, pyarrow.string() if name in text else pyarrow.int64()) for name in Row._fields])
        self._writer = pyarrow.parquet.ParquetWriter(name, self._schema)
        self._rows: List[Any] = []

    def __enter__(self) -> ParquetRows:
        return self

    def __exit__(self, *_: object) -> None:
        self._write()
        self._writer.close()

    def put(self, rows: str) -> None:
        for row in map(json.loads, rows.splitlines()):
            # (a text of Parquet has no bytes of a name that are no UTF-8)
            self._rows.append({**row, "file": row["file"].encode(errors="backslashreplace").decode()})
        if len(self._rows) >= self._MOST:
            self._write()

    def _write(self) -> None:
        if self._rows:
            self._writer.write_table(self._table_of(self._rows, schema=self._schema))
        self._rows = []
