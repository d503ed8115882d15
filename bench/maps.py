"""Large maps as tables, and runs of the built program over them."""

import collections
import os
import resource
import subprocess
import sys
import tempfile

TOP = os.path.dirname(os.path.dirname(os.path.abspath(__file__)))
PROGRAM = os.path.join(TOP, "crates", "topo_cli", "out", "topo_cli")

NOT_BUILT = "build the program first: ./tackcherry ask examples/triangle < examples/triangle/script.txt"

EDGE_HEADER = "edge_id,start_node,end_node,next_left_edge,next_right_edge,left_face,right_face\n"


def write_tables(folder, nodes, edges, faces):
    """Writes node (id, face or None), edge (seven numbers) and face (id) rows as a folder's tables."""
    with open(os.path.join(folder, "node.csv"), "w") as file:
        file.write("node_id,containing_face\n")
        file.writelines(f"{n},{'' if f is None else f}\n" for n, f in nodes)
    with open(os.path.join(folder, "edge.csv"), "w") as file:
        file.write(EDGE_HEADER)
        file.writelines(",".join(map(str, e)) + "\n" for e in edges)
    with open(os.path.join(folder, "face.csv"), "w") as file:
        file.write("face_id\n")
        file.writelines(f"{f}\n" for f in faces)


def ring(first, count, face):
    """The edges of one ring round a face, in face 0; edge and start node have one number."""
    for i in range(count):
        e = first + i
        after = first + (i + 1) % count
        before = first + (i - 1) % count
        yield e, e, after, after, -before, face, 0


def closed_edge(e, inside, outside):
    """An edge from its node back to it, with a face inside and a face outside; edge and node have one number."""
    return e, e, e, e, -e, inside, outside


def rings(folder, count, length):
    """So many rings of so many edges side by side."""
    edges = (e for i in range(count) for e in ring(1 + i * length, length, i + 1))
    write_tables(folder, ((n, None) for n in range(1, count * length + 1)), edges, range(1, count + 1))


def node_by(n):
    """The nodes of n by n cells, row by row."""
    return lambda r, c: 1 + r * (n + 1) + c


# edges that run so many cells up and right from a node, and by that node their number and the faces beside them
Kind = collections.namedtuple("Kind", "up right number left_face right_face")


def edges_by(n, kinds):
    """The edges of n by n cells, one kind after another by their numbers; kinds stand clockwise from the north."""
    half = len(kinds)
    node = node_by(n)

    def leaving(r, c, direction):
        """The signed edge that leaves a node, clockwise from the north, or None: one that begins or ends there."""
        kind = kinds[direction % half]
        if direction < half:
            return kind.number(r, c) if r + kind.up <= n and c + kind.right <= n else None
        return -kind.number(r - kind.up, c - kind.right) if r >= kind.up and c >= kind.right else None

    def after(r, c, direction):
        """The next of a signed edge that enters a node in a direction."""
        for turn in range(1, 2 * half + 1):
            edge = leaving(r, c, (direction + half + turn) % (2 * half))
            if edge is not None:
                return edge
        raise AssertionError("a node without edges")

    for kind in sorted(kinds, key=lambda kind: kind.number(0, 0)):
        direction = kinds.index(kind)
        for r in range(n + 1 - kind.up):
            for c in range(n + 1 - kind.right):
                end = r + kind.up, c + kind.right
                yield (kind.number(r, c), node(r, c), node(*end), after(*end, direction), after(r, c, direction + half),
                       kind.left_face(r, c), kind.right_face(r, c))


def grid_edges(n):
    """The edges of a grid of n by n cells: edges to the east, then to the north."""
    easts = n * (n + 1)

    def cell(r, c):
        return 1 + r * n + c if 0 <= r < n and 0 <= c < n else 0

    north = Kind(1, 0, lambda r, c: 1 + easts + r * (n + 1) + c, lambda r, c: cell(r, c - 1), cell)
    east = Kind(0, 1, lambda r, c: 1 + r * n + c, cell, lambda r, c: cell(r - 1, c))
    return edges_by(n, [north, east])


def grid(folder, n):
    """A grid of n by n cells."""
    write_tables(folder, ((v, None) for v in range(1, (n + 1) ** 2 + 1)), grid_edges(n), range(1, n * n + 1))


def mesh_edges(n):
    """The edges of a grid of n by n cells, each cut from its south-west to its north-east corner: edges to the east, then
    to the north, then across."""
    easts, norths = n * (n + 1), n * (n + 1)

    def below(r, c):
        return 1 + 2 * (r * n + c) if 0 <= r < n and 0 <= c < n else 0

    def above(r, c):
        return 2 + 2 * (r * n + c) if 0 <= r < n and 0 <= c < n else 0

    north = Kind(1, 0, lambda r, c: 1 + easts + r * (n + 1) + c, lambda r, c: below(r, c - 1), above)
    across = Kind(1, 1, lambda r, c: 1 + easts + norths + r * n + c, above, below)
    east = Kind(0, 1, lambda r, c: 1 + r * n + c, below, lambda r, c: above(r - 1, c))
    return edges_by(n, [north, across, east])


def mesh(folder, n):
    """A mesh of triangles, two for each of n by n cells."""
    write_tables(folder, ((v, None) for v in range(1, (n + 1) ** 2 + 1)), mesh_edges(n), range(1, 2 * n * n + 1))


def size_of(folder):
    return sum(os.path.getsize(os.path.join(folder, name)) for name in os.listdir(folder))


def measured(words, script=""):
    """Runs the built program: seconds of processor time, peak memory in bytes, exit status, bytes of output and its first line."""
    if not os.access(PROGRAM, os.X_OK):
        sys.exit(NOT_BUILT)
    with tempfile.TemporaryFile() as given, tempfile.TemporaryFile() as out:
        given.write(script.encode())
        given.seek(0)
        child = subprocess.Popen([PROGRAM, *words], stdin=given, stdout=out)
        _, status, usage = os.wait4(child.pid, 0)
        seconds = usage.ru_utime + usage.ru_stime
        child.returncode = os.waitstatus_to_exitcode(status)
        written = out.seek(0, os.SEEK_END)
        out.seek(0)
        first = out.read(60).decode(errors="replace").split("\n")[0]
    return seconds, 1024 * usage.ru_maxrss, child.returncode, written, first


def ask(what, folder, script):
    """Runs `ask` and prints time, peak memory and what came out."""
    seconds, peak, status, written, first = measured(["ask", folder], script)
    print(f"{what}: {seconds:.2f} s, peak {peak / 2**20:.0f} MiB, tables {size_of(folder) / 2**20:.0f} MiB, "
          f"status {status}, {written} bytes of answers, first {first!r}", flush=True)
    return seconds


def build(what, folder, edges):
    """Runs `build` and `check`, and prints time, peak memory and the size of the file."""
    with tempfile.TemporaryDirectory() as room:
        file = os.path.join(room, "map.pemb")
        seconds, peak, status, _, first = measured(["build", folder, file])
        size = os.path.getsize(file) if os.path.exists(file) else 0
        print(f"{what}: built in {seconds:.2f} s, peak {peak / 2**20:.0f} MiB ({peak / edges:.0f} bytes an edge), "
              f"tables {size_of(folder) / 2**20:.1f} MiB, file {size / 2**20:.1f} MiB ({size / edges:.1f} bytes an edge), "
              f"status {status}, {first!r}", flush=True)
        seconds, peak, status, _, first = measured(["check", file])
        print(f"{what}: opened in {seconds:.2f} s, peak {peak / 2**20:.0f} MiB, status {status}, {first!r}", flush=True)
