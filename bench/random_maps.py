"""Small random maps as tables, damage to them, and scripts that ask them."""

import os

from oracle import MOST_ID

COLUMNS = {
    "node": ("node_id", "containing_face"),
    "edge": ("edge_id", "start_node", "end_node", "next_left_edge", "next_right_edge", "left_face", "right_face"),
    "face": ("face_id",),
    "region": ("region_id", "parent"),
    "member": ("region_id", "face_id"),
}


class Sketch:
    """A plane map that is drawn edge by edge: the next of each signed edge and the node that it leaves."""

    def __init__(self):
        self.next = {}
        self.origin = {}
        self.nodes = 0

    def new_node(self):
        self.nodes += 1
        return self.nodes

    def new_edge(self, start, end):
        edge = len(self.next) // 2 + 1
        self.origin[edge], self.origin[-edge] = start, end
        return edge

    def before(self, signed):
        return next(one for one, after in self.next.items() if after == signed)

    def ring(self, signed):
        ring = [signed]
        while (after := self.next[ring[-1]]) != signed:
            ring.append(after)
        return ring

    def begin(self, is_loop):
        """A component of one edge; gives that edge."""
        node = self.new_node()
        edge = self.new_edge(node, node if is_loop else self.new_node())
        self.next |= {edge: edge, -edge: -edge} if is_loop else {edge: -edge, -edge: edge}
        return edge

    def bridge(self, at):
        """An edge from the corner before a signed edge to a new node."""
        before, edge = self.before(at), self.new_edge(self.origin[at], self.new_node())
        self.next |= {before: edge, edge: -edge, -edge: at}
        return edge

    def join(self, one, other):
        """An edge from the corner before a signed edge to that before one of its ring, which parts the ring."""
        before_one, before_other = self.before(one), self.before(other)
        edge = self.new_edge(self.origin[one], self.origin[other])
        self.next |= {before_one: edge, edge: other, -edge: one}
        if one == other:
            self.next[-edge] = -edge
        else:
            self.next[before_other] = -edge
        return edge

    def component(self, random, size):
        """Draws a component of so many edges, and gives its signed edges."""
        edges = [self.begin(random.random() < 0.5)]
        while len(edges) < size:
            at = random.choice(edges) * random.choice((1, -1))
            ring = self.ring(at)
            edges.append(self.bridge(at) if random.random() < 0.4 else self.join(at, random.choice(ring)))
        return [sign * edge for edge in edges for sign in (1, -1)]

    def signed_ids(self, random):
        """A new id for each signed edge; some edges are the other way round."""
        found = {}
        for edge, new in new_ids(random, len(self.next) // 2).items():
            forward = edge * random.choice((1, -1))
            found |= {forward: new, -forward: -new}
        return found

    def rings(self, part):
        """The rings of a component."""
        left, found = set(part), []
        for signed in part:
            if signed in left:
                found.append(self.ring(signed))
                left -= set(found[-1])
        return found


def shuffled(random, items):
    return random.sample(items, len(items))


def new_ids(random, count):
    """Ids for the numbers from 1 on: in a row or with gaps, in any order."""
    most = random.choice((count, 2 * count + 3, MOST_ID))
    return dict(enumerate(random.sample(range(1, most + 1), count), 1))


def some_components(random):
    """How many edges each component has: mostly few, at times so many that parts of the file have several blocks."""
    if random.random() < 0.03:
        return random.choice(([700], [3] * 150, [1] * 300))
    return [random.randint(1, random.choice((1, 3, 12))) for _ in range(random.choice((0, 1, 1, 2, 4, 9)))]


def place(random, sketch, parts):
    """The face of each signed edge, and the last face. A component lies in a face that there was before it."""
    side, faces = {}, 0
    for part in parts:
        outer, *shells = shuffled(random, sketch.rings(part))
        side |= dict.fromkeys(outer, random.randint(0, faces))
        for ring in shells:
            faces += 1
            side |= dict.fromkeys(ring, faces)
    return side, faces


def regions_over(random, faces):
    """Rows of regions that nest, and of members."""
    count = random.choice((0, 1, 3, 8)) if random.random() < 0.97 else 400
    ids = list(new_ids(random, count).values())
    regions = [(region, random.choice(["", *ids[:at]])) for at, region in enumerate(ids)]
    members = [(random.choice(ids), face) for face in faces if ids and random.random() < 0.6]
    return regions, members


def tables(random):
    """The five tables of a random map: for each the header and the rows, all as text."""
    sketch = Sketch()
    parts = [sketch.component(random, size) for size in some_components(random)]
    side, faces = place(random, sketch, parts)
    isolated = {sketch.new_node(): random.randint(0, faces) for _ in range(random.choice((0, 0, 1, 5)))}
    node_id, face_id = new_ids(random, sketch.nodes), new_ids(random, faces) | {0: 0}
    edge_id = sketch.signed_ids(random)

    def edge_row(forward):
        both = forward, -forward
        ends = [node_id[sketch.origin[signed]] for signed in both]
        nexts = [edge_id[sketch.next[signed]] for signed in both]
        return edge_id[forward], *ends, *nexts, *(face_id[side[signed]] for signed in both)

    regions, members = regions_over(random, face_id.values())
    contained = {node: face_id[face] for node, face in isolated.items()}
    numbers = {
        "node": [(new, contained.get(node, "")) for node, new in node_id.items()],
        "edge": [edge_row(signed) for signed, new in edge_id.items() if new > 0],
        "face": [(face,) for face in face_id.values() if face or random.random() < 0.5],
        "region": regions,
        "member": members,
    }
    return {table: [list(map(str, row)) for row in (COLUMNS[table], *rows)] for table, rows in numbers.items()}


# Files

NOT_NEEDED = ("", "0103", "a,b", 'say "so"', "é", "1\n2")


def with_others(random, rows):
    """The columns in any order, and maybe one that isn't needed."""
    if random.random() < 0.5:
        header, *others = rows
        rows = [[*header, "geom"], *([*row, random.choice(NOT_NEEDED)] for row in others)]
    order = shuffled(random, range(len(rows[0])))
    return [[row[at] for at in order if at < len(row)] + row[len(order):] for row in rows]


def field(random, text):
    if random.random() < 0.1 or any(it in text for it in ',"\r\n'):
        return '"' + text.replace('"', '""') + '"'
    return text


def as_csv(random, rows):
    """The bytes of a table: rows in any order, some fields quoted, any line ends."""
    header, *others = with_others(random, rows)
    end = random.choice(("\n", "\n", "\r\n", "\r"))
    lines = [",".join(field(random, text) for text in row) for row in (header, *shuffled(random, others))]
    if random.random() < 0.2:
        lines.insert(random.randint(0, len(lines)), "")
    text = end.join(lines) + random.choice((end, ""))
    return random.choice((b"", b"", b"", b"\xef\xbb\xbf")) + text.encode()


def write(random, tables, folder):
    """Writes the files of the tables into a new folder. Those of regions and members without rows may be left out."""
    os.mkdir(folder)
    for table, rows in tables.items():
        if table in ("region", "member") and len(rows) == 1 and random.random() < 0.7:
            continue
        with open(os.path.join(folder, table + ".csv"), "wb") as file:
            file.write(as_csv(random, rows))


# Damage: each changes tables in place

# where an edge row has the node, next and face of the forward signed edge; those of the backward one stand behind
NODE, NEXT, FACE = 1, 3, 5

ODD_NUMBERS = (
    *("", "0", "-0", "-1", "+1", "01", "1 ", " 1", "1.0", "x", "NULL", "é"),
    *("2147483648", "9223372036854775807", "9223372036854775808", "18446744073709551617"),
)


def any_table(random, tables):
    """The header and the rows of a table, of one that has rows where there is one."""
    with_rows = [rows for rows in tables.values() if len(rows) > 1]
    return random.choice(with_rows or list(tables.values()))


def change_field(random, tables):
    row = random.choice(any_table(random, tables))
    row[random.randrange(len(row))] = some_text(random, tables)


def some_text(random, tables):
    """An id of the tables, or another text."""
    ids = [row[0] for rows in tables.values() for row in rows[1:]]
    known = random.choice(ids or ["1"])
    return random.choice((known, known, "-" + known, str(random.randint(0, 12)), random.choice(ODD_NUMBERS)))


def drop_row(random, tables):
    rows = any_table(random, tables)
    if len(rows) > 1:
        del rows[random.randrange(1, len(rows))]


def double_row(random, tables):
    rows = any_table(random, tables)
    rows.append(list(random.choice(rows)))


def add_row(random, tables):
    rows = random.choice(list(tables.values()))
    rows.append([some_text(random, tables) for _ in rows[0]])


def change_length(random, tables):
    row = random.choice(any_table(random, tables))
    if random.random() < 0.5 and len(row) > 1:
        row.pop()
    else:
        row.append("1")


def double_column(random, tables):
    rows = random.choice(list(tables.values()))
    at = random.randrange(len(rows[0]))
    for row in rows:
        row.append(row[at])


def half_edges(tables):
    """Each signed edge as its row and 0 for forward or 1 for backward."""
    return [(row, back) for row in tables["edge"][1:] for back in (0, 1)]


def exchange_nexts(random, tables):
    """The nexts of up to three signed edges that enter one node go round: its round may part, or the rings change."""
    halves = half_edges(tables)
    if not halves:
        return
    row, back = random.choice(halves)
    head = row[NODE + 1 - back]
    entering = [(it, side) for it, side in halves if it[NODE + 1 - side] == head]
    chosen = random.sample(entering, min(3, len(entering)))
    nexts = [it[NEXT + side] for it, side in chosen]
    for (it, side), following in zip(chosen, nexts[1:] + nexts[:1]):
        it[NEXT + side] = following


def one_face(random, tables):
    """All edges and isolated nodes lie in face 0."""
    for row, back in half_edges(tables):
        row[FACE + back] = "0"
    for row in tables["node"][1:]:
        row[1] = row[1] and "0"
    if random.random() < 0.7:
        del tables["face"][1:]


def add_edge(random, tables):
    """An edge from the corner before a signed edge to that before another one, wherever they are."""
    halves = {"-" * back + row[0]: (row, back) for row, back in half_edges(tables)}
    before = {row[NEXT + back]: (row, back) for row, back in halves.values()}
    ends = [signed for signed in halves if signed in before]
    if len(ends) < 2:
        return
    one, other = random.sample(ends, 2)
    edge = str(random.randint(1, MOST_ID))
    nodes = [row[NODE + back] for row, back in (halves[one], halves[other])]
    for signed, following in ((one, edge), (other, "-" + edge)):
        row, back = before[signed]
        row[NEXT + back] = following
    tables["edge"].append([edge, *nodes, other, one, "0", "0"])


def add_handle(random, tables):
    """An edge more, which may join two rings, and all edges lie in face 0."""
    add_edge(random, tables)
    one_face(random, tables)


def rename_face(random, tables):
    """One face is another one, wherever edges have it."""
    faces = [row[0] for row in tables["face"][1:]] + ["0"]
    one, other = random.choice(faces), random.choice(faces)
    for row, back in half_edges(tables):
        if row[FACE + back] == one:
            row[FACE + back] = other


def exchange_faces(random, tables):
    """The faces of one ring and of another are exchanged."""
    halves = half_edges(tables)
    if not halves:
        return
    rings = [ring_of(tables, *random.choice(halves)) for _ in range(2)]
    faces = [ring[0][0][FACE + ring[0][1]] for ring in rings]
    for ring, face in zip(rings, reversed(faces)):
        for row, back in ring:
            row[FACE + back] = face


def ring_of(tables, row, back):
    rows = {it[0]: it for it in tables["edge"][1:]}
    ring = []
    while (row, back) not in ring:
        ring.append((row, back))
        following = row[NEXT + back]
        if following.removeprefix("-") not in rows:
            break
        row, back = rows[following.removeprefix("-")], int(following.startswith("-"))
    return ring


DAMAGES = (
    change_field,
    change_field,
    drop_row,
    double_row,
    add_row,
    double_column,
    exchange_nexts,
    exchange_nexts,
    one_face,
    add_edge,
    add_handle,
    rename_face,
    exchange_faces,
)


def damage(random, tables):
    for _ in range(random.choice((1, 1, 2, 3))):
        random.choice(DAMAGES)(random, tables)
    if random.random() < 0.05:
        change_length(random, tables)


def damage_file(random, folder):
    """One file is gone, or one byte of it, mostly behind the header, is another one, or gone, or new."""
    path = os.path.join(folder, random.choice(sorted(os.listdir(folder))))
    if random.random() < 0.05:
        os.remove(path)
        return
    with open(path, "rb") as file:
        data = file.read()
    at = random.randint(random.choice((0, data.find(b"\n") + 1)), len(data))
    new = random.choice((b"", b"0", b"7", b"-", b",", b'"', b"\n", b"\r", b" ", b"\xff", b"\0"))
    with open(path, "wb") as file:
        file.write(data[:at] + new + data[at + random.randint(0, 1):])


# Scripts

FORMS = {
    "node": "n",
    "ring": "e",
    "next": "e",
    "ends": "e",
    "sides": "e",
    "face": "f",
    "adjacent": "f",
    "contains": "n",
    "islands": "f",
    "regions": "f",
    "common": "ff",
    "counts": "",
}


def an_id(random, tables, kind):
    """A known id mostly, else any number."""
    table = {"n": "node", "e": "edge", "f": "face"}[kind]
    known = [row[0] for row in tables[table][1:]]
    if kind == "f":
        known.append("0")
    if known and random.random() < 0.93:
        text = random.choice(known)
    else:
        text = random.choice((str(random.randint(0, 20)), *ODD_NUMBERS))
    return "-" + text if random.random() < (0.5 if kind == "e" else 0.02) else text


def question(random, tables):
    form = random.choice(list(FORMS))
    return " ".join([form, *(an_id(random, tables, kind) for kind in FORMS[form])])


def misspelled(random, line):
    """A line with one character more, less or other."""
    at = random.randint(0, len(line))
    new = random.choice(("", " ", "x", "\t", "é", "0", "-", "#", "\r", "\0"))
    return line[:at] + new + line[at + random.randint(0, 1):]


def odd_line(random, tables):
    line = question(random, tables)
    spaces = " " * random.choice((1, 254, 255, 256, 300))
    long = line.ljust(random.choice((250, 255, 256, 257, 300, 70_000)), "0")
    not_asked = "", "#", "# " + line, spaces, long, "#" + long
    bad = " #", line.upper(), line + " 1", line.replace(" ", "  "), misspelled(random, line), misspelled(random, line)
    return random.choice(not_asked + bad)


def script(random, tables):
    """Lines of each form, with some that are no question; line ends of both kinds, the last maybe without one."""
    lines = []
    for _ in range(random.choice((0, 1, 40, 120))):
        line = odd_line(random, tables) if random.random() < 0.2 else question(random, tables)
        lines.append(line.encode() + random.choice((b"\n", b"\n", b"\n", b"\r\n", b"\r\r\n")))
    text = b"".join(lines)
    return text if random.random() < 0.7 else text[:-1]
