#!/usr/bin/env python3
"""Vets the messages of many files on Spark, and writes a row for each message as Parquet.

    vet_spark.py OUT FILE..

Each FILE is a path that Spark can read, such as s3a://bucket/parts/*.bin: a stream of messages, which one task reads into memory.
All executors need the Python packages `capvet`, `pandas` and `pyarrow`. By default a message has to be strict and unamplified.

A row has the reason "accepted", or why a message is refused. Where a file stops being a stream of messages, a last row says why.
"""
import sys
from typing import Any, Dict, Iterable, Iterator, List

import capvet

SCHEMA = "file string, message long, offset long, reason string, segment long, word long, pointer long, charge long, depth long, pointers long"


def row(file: str, message: int, offset: int, reason: str, **numbers: Any) -> Dict[str, Any]:
    names = ("segment", "word", "pointer", "charge", "depth", "pointers")
    return {"file": file, "message": message, "offset": offset, "reason": reason, **{name: numbers.get(name) for name in names}}


def rows_of(file: str, data: bytes) -> Iterator[Dict[str, Any]]:
    """The rows of one file."""
    try:
        for it in capvet.messages(data):
            if isinstance(it, capvet.Refusal):
                segment, word = it.position or (0, 0)
                yield row(file, it.number, it.offset, it.reason, segment=segment, word=word, pointer=it.pointer or 0)
            else:
                report = it.report
                yield row(file, it.number, it.offset, "accepted", charge=report.charge, depth=report.depth, pointers=report.pointers)
    except capvet.FrameError as error:
        yield row(file, error.number, error.offset, error.reason)


def vet(frames: Iterable[Any]) -> Iterator[Any]:
    """What mapInPandas calls: for frames of files it gives frames of rows."""
    import pandas
    names = [column.split()[0] for column in SCHEMA.split(", ")]
    for frame in frames:
        for file, data in zip(frame["path"], frame["content"]):
            found: List[Dict[str, Any]] = list(rows_of(file, bytes(data)))
            made = pandas.DataFrame(found, columns=names)
            yield made.astype({name: "Int64" for name in names if name not in ("file", "reason")})


def main() -> None:
    from pyspark.sql import SparkSession
    out, *files = sys.argv[1:]
    session = SparkSession.builder.appName("capvet").getOrCreate()
    session.read.format("binaryFile").load(files).select("path", "content").mapInPandas(vet, SCHEMA).write.parquet(out)


if __name__ == "__main__":
    main()
