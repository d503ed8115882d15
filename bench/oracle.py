#!/usr/bin/env python3
"""A plain oracle: what the program answers, read off the documents alone and computed plainly; for small maps.

    bench/oracle.py FOLDER < SCRIPT

It writes what `tackcherry ask FOLDER` writes, and ends with that one's status.
"""

import itertools
import os
import re
import sys
from collections import Counter

MOST_ID = 9_223_372_036_854_775_807
MOST_ROWS = 16_777_216
MOST_IN_LINE = 255

DONE, REFUSED, MISSING = 0, 2, 7


# Numbers as they are spelled

DIGITS = re.compile(rb"0|[1-9][0-9]{0,18}")


def plain(least):
    """Reads a number without a sign, from `least` on, or gives None."""
    def read(text):
        number = int(text) if DIGITS.fullmatch(text) else -1
        return number if least <= number <= MOST_ID else None
    return read


read_face = plain(0)
read_id = plain(1)


def read_signed(text):
    """Reads a signed edge, or gives None."""
    number = read_id(text.removeprefix(b"-"))
    return -number if number is not None and text.startswith(b"-") else number


# Tables

NEEDED, MAY_BE_NULL = False, True

TABLES = {
    "node": (("node_id", read_id, NEEDED), ("containing_face", read_face, MAY_BE_NULL)),
    "edge": (
        ("edge_id", read_id, NEEDED),
        ("start_node", read_id, NEEDED),
        ("end_node", read_id, NEEDED),
        ("next_left_edge", read_signed, NEEDED),
        ("next_right_edge", read_signed, NEEDED),
        ("left_face", read_face, NEEDED),
        ("right_face", read_face, NEEDED),
    ),
    "face": (("face_id", read_face, NEEDED),),
    "region": (("region_id", read_id, NEEDED), ("parent", read_id, MAY_BE_NULL)),
    "member": (("region_id", read_id, NEEDED), ("face_id", read_face, NEEDED)),
}
MAY_BE_MISSING = ("region", "member")


class Refused(Exception):
    """Tables are refused: the number of the refusal, and its fields in order."""

    def __init__(self, number, **fields):
        super().__init__(" ".join([number, *(f"{name}={value}" for name, value in fields.items())]))


class Missing(Exception):
    """A needed table is not there."""


# A field in quotes, with what stands behind them, or one without.
FIELD = re.compile(rb'"((?:[^"]|"")*)(?:"([^,\r\n]*)|\Z)|([^,\r\n]*)')
LINE_ENDS = b"\r\n"


def field_at(data, at):
    """The field that begins at a place, and the place behind it."""
    found = FIELD.match(data, at)
    quoted, behind, bare = found.groups()
    text = bare if quoted is None else quoted.replace(b'""', b'"') + (behind or b"")
    return text, found.end()


def records(data):
    """The records of a CSV file, each a list of fields; empty lines are none."""
    at = 3 if data.startswith(b"\xef\xbb\xbf") else 0
    while True:
        while at < len(data) and data[at] in LINE_ENDS:
            at += 1
        if at == len(data):
            return
        text, at = field_at(data, at)
        record = [text]
        while at < len(data) and data[at] not in LINE_ENDS:
            text, at = field_at(data, at + 1)
            record.append(text)
        yield record


def read_field(table, row, column, text):
    name, read, may_be_null = column
    if not text:
        if not may_be_null:
            raise Refused("F5", table=table, row=row, column=name)
        return None
    number = read(text)
    if number is None:
        raise Refused("F4", table=table, row=row, column=name)
    return number


def read_table(table, data):
    """The rows of a table, each the numbers of its needed columns in their order."""
    columns = TABLES[table]
    found = records(data)
    header = next(found, [])
    for number, is_wrong in (("F1", lambda count: count == 0), ("F2", lambda count: count > 1)):
        for name, _, _ in columns:
            if is_wrong(header.count(name.encode())):
                raise Refused(number, table=table, column=name)
    places = [header.index(name.encode()) for name, _, _ in columns]
    limit = MOST_ROWS + (table == "member")
    rows = []
    for row, record in enumerate(found, 1):
        if row > limit:
            raise Refused("F6", table=table)
        if len(record) != len(header):
            raise Refused("F3", table=table, row=row, fields=len(record), wanted=len(header))
        rows.append([read_field(table, row, column, record[at]) for column, at in zip(columns, places)])
    return rows


def read_tables(folder):
    rows = {}
    for table in TABLES:
        path = os.path.join(folder, table + ".csv")
        try:
            with open(path, "rb") as file:
                rows[table] = read_table(table, file.read())
        except FileNotFoundError:
            if table not in MAY_BE_MISSING:
                raise Missing(path) from None
            rows[table] = []
    return rows


# The map

FIRST, SECOND = 0, 1


def by_id(signed):
    """The order of signed edges: by id, the forward one first."""
    return abs(signed), signed < 0


def orbit(step, first):
    """From one point on until it comes again."""
    points = [first]
    while (point := step(points[-1])) != first:
        points.append(point)
    return points


class Map:
    """The five tables as finite maps, and what they say of signed edges."""

    def __init__(self, rows):
        self.nodes = dict(rows["node"])
        self.edges = {edge: (start, end) for edge, start, end, *_ in rows["edge"]}
        self.nexts = {edge: (left, right) for edge, _, _, left, right, _, _ in rows["edge"]}
        self.sides = {edge: (left, right) for edge, *_, left, right in rows["edge"]}
        self.faces = sorted({face for face, in rows["face"]} - {0})
        self.parents = dict(rows["region"])
        self.region_of = {face: region for region, face in rows["member"]}
        self.signed = [sign * edge for edge in self.edges for sign in (1, -1)]

    def origin(self, signed):
        return self.edges[abs(signed)][SECOND if signed < 0 else FIRST]

    def head(self, signed):
        return self.origin(-signed)

    def next(self, signed):
        return self.nexts[abs(signed)][SECOND if signed < 0 else FIRST]

    def turn(self, signed):
        return self.next(-signed)

    def side(self, signed):
        return self.sides[abs(signed)][SECOND if signed < 0 else FIRST]

    def leaving(self, node):
        return sorted((signed for signed in self.signed if self.origin(signed) == node), key=by_id)

    def orbits(self, step):
        """All orbits, each from its smallest signed edge on, by that one."""
        seen, found = set(), []
        for signed in sorted(self.signed, key=by_id):
            if signed not in seen:
                found.append(orbit(step, signed))
                seen.update(found[-1])
        return found

    def rings(self):
        return self.orbits(self.next)

    def components(self):
        """The least sets that are closed under reverse and turn."""
        seen, found = set(), []
        for first in sorted(self.signed, key=by_id):
            if first not in seen:
                part, waiting = {first}, [first]
                while waiting:
                    signed = waiting.pop()
                    new = {-signed, self.turn(signed)} - part
                    part |= new
                    waiting += new
                found.append(frozenset(part))
                seen |= part
        return found

    def has_face(self, face):
        return face == 0 or face in self.faces


# Faults: each function yields all of its kind, those that come first in the order of the documents first

def twice(table, ids):
    for number, count in sorted(Counter(ids).items()):
        if count > 1:
            yield Refused("F7", table=table, id=number)


def lost_nodes(rows, the_map):
    for edge, start, end, *_ in rows["edge"]:
        for node in (start, end):
            if node not in the_map.nodes:
                yield Refused("F8", edge=edge, node=node)


def lost_edges(rows, the_map):
    for edge, _, _, left, right, _, _ in rows["edge"]:
        for signed in (left, right):
            if abs(signed) not in the_map.edges:
                yield Refused("F9", edge=edge, next=signed)


def lost_faces(rows, the_map):
    for edge, *_, left, right in rows["edge"]:
        for face in (left, right):
            if not the_map.has_face(face):
                yield Refused("F10", table="edge", id=edge, face=face)
    for node, face in rows["node"]:
        if face is not None and not the_map.has_face(face):
            yield Refused("F10", table="node", id=node, face=face)


def nexts_elsewhere(the_map):
    for signed in the_map.signed:
        if the_map.origin(the_map.next(signed)) != the_map.head(signed):
            yield Refused("F11", edge=signed, next=the_map.next(signed))


def nexts_of_two(the_map):
    counts = Counter(map(the_map.next, the_map.signed))
    for signed in sorted(counts, key=by_id):
        if counts[signed] > 1:
            yield Refused("F12", next=signed)


def rounds_in_parts(the_map):
    for node in sorted(the_map.nodes):
        leaving = the_map.leaving(node)
        if leaving and len(orbit(the_map.turn, leaving[0])) < len(leaving):
            yield Refused("F13", node=node)


def wrongly_contained(rows, the_map):
    for node, face in rows["node"]:
        if (face is None) != bool(the_map.leaving(node)):
            yield Refused("F14", node=node)


def rings_of_two_faces(the_map):
    for signed in the_map.signed:
        if the_map.side(the_map.next(signed)) != the_map.side(signed):
            yield Refused("F15", edge=signed, next=the_map.next(signed))


def not_plane(the_map):
    rings = the_map.rings()
    for part in the_map.components():
        nodes = len({the_map.origin(signed) for signed in part})
        edges = len(part) // 2
        inside = sum(ring[0] in part for ring in rings)
        if nodes - edges + inside != 2:
            yield Refused("F16", edge=min(map(abs, part)), nodes=nodes, edges=edges, rings=inside)


def outer_rings(the_map):
    """Each component that is reached from face 0, with the ring through which it is first reached."""
    rings, left, reached, faces = the_map.rings(), the_map.components(), {}, {0}
    while faces:
        new = {part: ring for part in left for ring in rings if ring[0] in part and the_map.side(ring[0]) in faces}
        reached |= new
        left = [part for part in left if part not in new]
        faces = {the_map.side(signed) for part in new for signed in part}
    return reached


def not_reached(the_map):
    reached = outer_rings(the_map)
    for part in the_map.components():
        if part not in reached:
            yield Refused("F18", edge=min(map(abs, part)))


def faces_of_no_edge(the_map):
    used = set(map(the_map.side, the_map.signed))
    for face in the_map.faces:
        if face not in used:
            yield Refused("F19", face=face)


def wrong_number_of_rings(the_map):
    rings, faces, parts = len(the_map.rings()), len(the_map.faces) + 1, len(the_map.components())
    if rings != parts + faces - 1:
        yield Refused("F17", rings=rings, faces=faces, components=parts)


def lost_parents(rows, the_map):
    for region, parent in rows["region"]:
        if parent is not None and parent not in the_map.parents:
            yield Refused("F20", table="region", id=region, region=parent)


def chain(the_map, region):
    """The region, its parent, and so on; of one that lies in itself until one comes again."""
    found = []
    while region is not None and region not in found:
        found.append(region)
        region = the_map.parents[region]
    return found, region


def in_themselves(the_map):
    for region in sorted(the_map.parents):
        if chain(the_map, region)[1] == region:
            yield Refused("F21", region=region)


def lost_regions(rows, the_map):
    for region, face in rows["member"]:
        if region not in the_map.parents:
            yield Refused("F20", table="member", id=face, region=region)


def lost_members(rows, the_map):
    for region, face in rows["member"]:
        if not the_map.has_face(face):
            yield Refused("F10", table="member", id=region, face=face)


def members_of_two(rows):
    for face, count in sorted(Counter(face for _, face in rows["member"]).items()):
        if count > 1:
            yield Refused("F22", face=face)


def faults(rows):
    """All faults of tables that were read, from the first on. Each kind is looked for only where none came before."""
    the_map = Map(rows)
    for table in ("node", "edge", "face"):
        yield from twice(table, [row[0] for row in rows[table]])
    yield from lost_nodes(rows, the_map)
    yield from lost_edges(rows, the_map)
    yield from lost_faces(rows, the_map)
    yield from nexts_elsewhere(the_map)
    yield from nexts_of_two(the_map)
    yield from rounds_in_parts(the_map)
    yield from wrongly_contained(rows, the_map)
    yield from rings_of_two_faces(the_map)
    yield from not_plane(the_map)
    yield from not_reached(the_map)
    yield from faces_of_no_edge(the_map)
    yield from wrong_number_of_rings(the_map)
    yield from twice("region", [row[0] for row in rows["region"]])
    yield from lost_parents(rows, the_map)
    yield from in_themselves(the_map)
    yield from lost_regions(rows, the_map)
    yield from lost_members(rows, the_map)
    yield from members_of_two(rows)


# Answers

class Answers:
    """The answers over a consistent map: for each form its items, or None where the map has no such id."""

    def __init__(self, the_map):
        self.map = the_map
        self.outer = outer_rings(the_map)
        outer = list(self.outer.values())
        self.shells = {the_map.side(ring[0]): ring for ring in the_map.rings() if ring not in outer}

    def has_edge(self, signed):
        return abs(signed) in self.map.edges

    def inside(self, face):
        """The outer rings of what lies in a face, by their smallest."""
        rings = [ring for ring in self.outer.values() if self.map.side(ring[0]) == face]
        return sorted(rings, key=lambda ring: by_id(ring[0]))

    def node(self, node):
        if node not in self.map.nodes:
            return None
        leaving = self.map.leaving(node)
        return orbit(self.map.turn, leaving[0]) if leaving else []

    def ring(self, signed):
        return orbit(self.map.next, signed) if self.has_edge(signed) else None

    def next(self, signed):
        return [self.map.next(signed)] if self.has_edge(signed) else None

    def ends(self, signed):
        return [self.map.origin(signed), self.map.head(signed)] if self.has_edge(signed) else None

    def sides(self, signed):
        return [self.map.side(signed), self.map.side(-signed)] if self.has_edge(signed) else None

    def face(self, face):
        if not self.map.has_face(face):
            return None
        return [*self.shells.get(face, []), *itertools.chain(*self.inside(face))]

    def adjacent(self, face):
        edges = self.face(face)
        if edges is None:
            return None
        return [other for other in dict.fromkeys(self.map.side(-signed) for signed in edges) if other != face]

    def contains(self, node):
        if node not in self.map.nodes:
            return None
        for part, ring in self.outer.items():
            if node in map(self.map.origin, part):
                return [self.map.side(ring[0])]
        return [self.map.nodes[node]]

    def islands(self, face):
        if not self.map.has_face(face):
            return None
        isolated = sorted(node for node, within in self.map.nodes.items() if within == face)
        return [ring[0] for ring in self.inside(face)] + [f"n{node}" for node in isolated]

    def regions(self, face):
        if not self.map.has_face(face):
            return None
        return chain(self.map, self.map.region_of.get(face))[0]

    def common(self, one, other):
        chains = self.regions(one), self.regions(other)
        if None in chains:
            return None
        return [region for region in chains[0] if region in chains[1]][:1]

    def counts(self):
        the_map = self.map
        return [len(the_map.nodes), len(the_map.edges), len(the_map.faces), len(self.outer), len(the_map.parents)]


FORMS = {
    b"node": (Answers.node, [read_id]),
    b"ring": (Answers.ring, [read_signed]),
    b"next": (Answers.next, [read_signed]),
    b"ends": (Answers.ends, [read_signed]),
    b"sides": (Answers.sides, [read_signed]),
    b"face": (Answers.face, [read_face]),
    b"adjacent": (Answers.adjacent, [read_face]),
    b"contains": (Answers.contains, [read_id]),
    b"islands": (Answers.islands, [read_face]),
    b"regions": (Answers.regions, [read_face]),
    b"common": (Answers.common, [read_face, read_face]),
    b"counts": (Answers.counts, []),
}


def query(answers, line):
    """The answer to a line that is a query, or None."""
    name, *words = line.split(b" ")
    if name not in FORMS:
        return None
    items_of, readers = FORMS[name]
    if len(words) != len(readers):
        return None
    numbers = [read(word) for read, word in zip(readers, words)]
    if None in numbers:
        return None
    items = items_of(answers, *numbers)
    if items is None:
        items = ["unknown"]
    return line + b":" + b"".join(b" %s" % str(item).encode() for item in items)


def answer(answers, line):
    """What is written for a line of the script."""
    line = line.removesuffix(b"\r")
    if len(line) > MOST_IN_LINE:
        return b"long\n"
    if not line.strip(b" ") or line.startswith(b"#"):
        return b""
    return (query(answers, line) or b"bad") + b"\n"


def lines(script):
    found = script.split(b"\n")
    return found if found[-1] else found[:-1]


def serve(rows, script):
    answers = Answers(Map(rows))
    return b"".join(answer(answers, line) for line in lines(script))


def accept(folder):
    """The rows of a folder's tables, which are a consistent map."""
    rows = read_tables(folder)
    fault = next(faults(rows), None)
    if fault:
        raise fault
    return rows


def judged(folder, do):
    """The status and the output of a call that does something with a folder's rows where these are accepted."""
    try:
        rows = accept(folder)
    except Missing as name:
        return MISSING, f"missing {name}\n".encode()
    except Refused as fault:
        return REFUSED, f"refused {fault}\n".encode()
    return DONE, do(rows)


def ask(folder, script):
    return judged(folder, lambda rows: serve(rows, script))


def build(folder):
    """What `build` writes, whose line is that of `counts` under another word."""
    return judged(folder, lambda rows: serve(rows, b"counts").replace(b"counts:", b"built"))


if __name__ == "__main__":
    status, output = ask(sys.argv[1], sys.stdin.buffer.read())
    sys.stdout.buffer.write(output)
    sys.exit(status)
