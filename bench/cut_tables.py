#!/usr/bin/env python3
"""Cuts an edge table at each byte and prints what is said of each cut: the rows and the last right face, or the
refusal. Written by docs/input-and-output.md, "Tables", for crates/topo_csv/src/tests/cut_tables.rt. A run of like cuts
is one line, which begins with its first length."""

import csv
import io

TABLE = b"""\
edge_id,start_node,end_node,next_left_edge,abs_next_left_edge,"next_right_edge",abs_next_right_edge,left_face,right_face
12,1,2,23,23,-31,31,10,0
23,2,3,31,31,"-12",12,10,"204"
31,3,1,12,12,-23,23,10,30
2147483647,"4",4,7,7,-7,7,0,2147483647
"""

LARGEST = 9223372036854775807
NEEDED = [
    ("edge_id", "EdgeId", 1, False),
    ("start_node", "StartNode", 1, False),
    ("end_node", "EndNode", 1, False),
    ("next_left_edge", "NextLeftEdge", 1, True),
    ("next_right_edge", "NextRightEdge", 1, True),
    ("left_face", "LeftFace", 0, False),
    ("right_face", "RightFace", 0, False),
]


def records(data):
    """The records of bytes, without empty lines."""
    return [record for record in csv.reader(io.StringIO(data.decode(), newline="")) if record]


def number(text, least, signed):
    """The number that is spelled so, if there is one within its range."""
    digits = text[1:] if signed and text.startswith("-") else text
    if not digits.isdigit() or (digits[0] == "0" and digits != "0"):
        return None
    return int(text) if least <= int(digits) <= LARGEST else None


def verdict(data):
    """What is said of a table."""
    header, *rows = records(data) or [[]]
    for name, column, _, _ in NEEDED:
        if name not in header:
            return "ColumnMissing { table: Edge, column: %s }" % column
    for name, column, _, _ in NEEDED:
        if header.count(name) > 1:
            return "ColumnTwice { table: Edge, column: %s }" % column
    last = 0
    for row, fields in enumerate(rows, 1):
        if len(fields) != len(header):
            return "RowShape { table: Edge, row: %d, fields: %d, wanted: %d }" % (row, len(fields), len(header))
        for name, column, least, signed in NEEDED:
            text = fields[header.index(name)]
            if text == "":
                return "EmptyNumber { table: Edge, row: %d, column: %s }" % (row, column)
            last = number(text, least, signed)
            if last is None:
                return "BadNumber { table: Edge, row: %d, column: %s }" % (row, column)
    return "%d rows to %d" % (len(rows), last)


before = None
for length in range(len(TABLE) + 1):
    said = verdict(TABLE[:length])
    if said != before:
        print("%d: %s" % (length, said))
        before = said
