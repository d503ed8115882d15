#!/usr/bin/env python3
"""Damages files 2,000 times, of form 1 and of form 2 in turn, and says of each copy, with the digest that it has and
with the right one, whether it is lawful, or else the refusal, and what the lawful ones answer. Written by docs/file.md
and docs/definitions.md, with no code of the program; the tests `damaged_files` and `hostile_scripts` of
crates/topo_serve compare the program with it.

    python3 bench/damaged.py           a line for each copy
    python3 bench/damaged.py table     the letters and the sums that the test has
    python3 bench/damaged.py script    the size, the lines and the sum of the answers to a script of random bytes
    python3 bench/damaged.py lawful    each lawful copy once: its changed words, the sum of its answers, and these
    python3 bench/damaged.py words     the words of both files
"""

import hashlib
import re
import struct
import sys

MAGIC = 0x4F504F54424D4550
MOST = 1 << 24
LARGEST_ID = (1 << 63) - 1
# How many bits an id has in each form.
ID_BITS = {1: 31, 2: 63}
COPIES = 2000
SEED = 5


class Random:
    """Numbers from a seed, by a linear congruence."""

    def __init__(self, seed):
        self.state = seed

    def below(self, bound):
        self.state = (self.state * 6364136223846793005 + 1442695040888963407) % 2**64
        return (self.state >> 33) % max(bound, 1)


# Where the places of edges begin in each form.
EDGE_PLACES = {1: 8 * 39, 2: 8 * 43}


def flip(data, at, bit):
    if at < len(data):
        data[at] ^= 1 << bit


def exchange(data, one, other, length):
    for i in range(length):
        if one + i < len(data) and other + i < len(data):
            data[one + i], data[other + i] = data[other + i], data[one + i]


def exchange_places(data, one, other):
    """Exchanges the places of two edges, which have three bits each."""
    at = EDGE_PLACES[data[8]]
    places = data[at] + (data[at + 1] << 8)
    differ = (places >> 3 * one ^ places >> 3 * other) % 8
    places ^= differ << 3 * one ^ differ << 3 * other
    data[at], data[at + 1] = places % 256, places >> 8


def lengthen(data, random, count):
    for _ in range(count):
        data.append(random.below(256))


def shorten(data, count):
    del data[max(len(data) - count, 0):]


def damage(data, random):
    """One damage: bits flipped (anywhere, or low ones of fields), words or fields exchanged, cut or lengthened, a count
    changed and the length as well, or two edges' places in the rising list exchanged."""
    size = len(data)
    kind = random.below(11)
    if kind < 2:
        for _ in range(kind + 1):
            at = random.below(size)
            flip(data, at, random.below(8))
    elif kind < 5:
        for _ in range(kind - 1):
            at = 4 * random.below(size // 4)
            flip(data, at, random.below(3))
    elif kind < 7:
        length = 8 if kind == 5 else 4
        one = length * random.below(size // length)
        exchange(data, one, length * random.below(size // length), length)
    elif kind == 7:
        count = random.below(24) if random.below(2) == 0 else 8 * random.below(size // 8)
        if random.below(2) == 0:
            shorten(data, count)
        else:
            lengthen(data, random, count)
    elif kind < 10:
        flip(data, 48 + 8 * random.below(9), random.below(3))
        count = random.below(15)
        if count < 3:
            shorten(data, 8 * count)
        else:
            data.extend(bytes(8 * (count - 3)))
    else:
        exchange_places(data, random.below(4), random.below(4))


def seal(data):
    """Puts the right digest into its place."""
    if len(data) >= 48:
        data[16:48] = hashlib.sha256(data[48:]).digest()


def blocks(bits):
    return -(-bits // 512)


def tree_words(count):
    return count if count < 2 else count + tree_words(-(-count // 2))


def low_width(form, count):
    """How many bits the low part of an id has, among so many names."""
    return max(ID_BITS[form] - count.bit_length(), 1)


def place_width(count):
    return max(count.bit_length(), 1)


def layout(form, m, t, k, i, r, *back):
    """Of each section its number, how many fields it has and of how many bits."""
    f, n = max(m - t, 0), k + t + i

    def counted(number, bits):
        return [(number, bits, 1), (number + 1, blocks(bits) + 1, 32)]

    def searched(number, bits):
        return counted(number, bits) + [(number + 2, tree_words(blocks(bits)), 64)]

    def names(number, count, back):
        return (
            counted(number + 1, count + (1 << count.bit_length()))
            + [(number + 3, count, low_width(form, count)), (number + 4, count, place_width(count))]
            + counted(number + 5, count) + [(number + 7, back, place_width(count))]
        )

    return (
        counted(1, 2 * m) + searched(3, 2 * t) + searched(6, 2 * f) + [(9, k + 1, 32), (10, m, 1)]
        + names(30, n, back[0]) + names(40, m, back[1]) + names(50, f, back[2])
        + [(17, k, 32), (18, k, 32), (19, i, 32)] + searched(20, 2 * r) + names(60, r, back[3]) + [(25, f + 1, 32)]
    )


def cut_into_sections(words):
    """The fields of each section by its number, and the first word with a bit past what its section holds."""
    found, padding, at = {}, None, 15
    for number, count, width in layout(words[1], *words[6:15]):
        size = -(-count * width // 64)
        whole = sum(word << (64 * j) for j, word in enumerate(words[at:at + size]))
        found[number] = [(whole >> (width * j)) % 2**width for j in range(count)]
        if whole >> (width * count) and padding is None:
            padding = at + size - 1
        at += size
    return found, padding


def directory(bits):
    """The ones before each block, and all."""
    return [sum(bits[:512 * j]) for j in range(blocks(len(bits)))] + [sum(bits)]


def tree(bits):
    """The words of the min-max tree: of each part what its bits sum to and the least of a front."""
    level = []
    for j in range(blocks(len(bits))):
        total = least = 0
        for bit in bits[512 * j:512 * j + 512]:
            total += 1 if bit else -1
            least = min(least, total)
        level.append((total, least))
    levels = list(level)
    while len(level) > 1:
        pairs = [level[j:j + 2] for j in range(0, len(level), 2)]
        level = [
            pair[0] if len(pair) == 1 else (pair[0][0] + pair[1][0], min(pair[0][1], pair[0][0] + pair[1][1]))
            for pair in pairs
        ]
        levels += level
    return [total % 2**32 + (least % 2**32 << 32) for total, least in levels]


def unbalanced(bits):
    """The first place that closes what doesn't open, or the end where some stay open."""
    depth = 0
    for place, bit in enumerate(bits):
        depth += 1 if bit else -1
        if depth < 0:
            return place
    return len(bits) if depth else None


def wrong(want, found):
    return next((at for at in range(len(want)) if want[at] != found[at]), None)


class Names:
    """The names in the sections behind a number: the ids of a rising list, and the place in it of each number."""

    def __init__(self, section, form, number):
        self.number, self.form = number, form
        self.high, self.counts, self.lows, self.places, self.marks, self.mark_counts, self.back = (
            section[number + part] for part in range(1, 8))

    def id_at(self, place):
        """The id at a place of the list: its high part is the number of zeros before the one that it has."""
        ones = [at for at, bit in enumerate(self.high) if bit]
        return (ones[place] - place << low_width(self.form, len(self.places))) + self.lows[place]

    def ids(self):
        """The ids by number."""
        return [self.id_at(place) for place in self.places]

    def found_from(self, place):
        """The number that the walk from a place comes to, if it comes to one."""
        x, may_jump = place, True
        for _ in range((len(self.places) + 2).bit_length() + 1):
            if x >= len(self.places):
                return None
            if self.places[x] == place:
                return x
            if self.marks[x] and may_jump:
                x, may_jump = self.back[sum(self.marks[:x])], False
            else:
                x = self.places[x]
        return None

    def fault(self):
        """The section of the first fault, and what is said of it there."""
        count, before = len(self.places), 0
        at = wrong(directory(self.high), self.counts)
        if at is not None:
            return self.number + 2, at
        if sum(self.high) != count:
            return self.number + 1, sum(self.high)
        for place in range(count):
            if not before < self.id_at(place) < 1 << count.bit_length() + low_width(self.form, count):
                return self.number + 3, place
            before = self.id_at(place)
        at = wrong(directory(self.marks), self.mark_counts)
        if at is not None:
            return self.number + 6, at
        if sum(self.marks) != len(self.back):
            return self.number + 5, sum(self.marks)
        for number, place in enumerate(self.places):
            if place >= count or self.found_from(place) != number:
                return self.number + 4, number
        return None


def sequence_fault(section, t):
    starts, a, b, dual = section[9], section[1], section[3], section[6]
    for index, start in enumerate(starts):
        rises = start == 0 if index == 0 else start > starts[index - 1]
        if not rises or (index + 1 == len(starts) and start != len(a)):
            return "Starts { index: %d }" % index
    if sum(a) != 2 * t:
        return "Ones { found: %d }" % sum(a)
    for name, kind, bits in (("Tree", 1, b), ("Dual", 0, dual)):
        for component in range(len(starts) - 1):
            begin, end = (a[:start].count(kind) for start in starts[component:component + 2])
            if unbalanced(bits[begin:end]) is not None:
                return "%s { component: %d }" % (name, component)
    return None


class Walk:
    """A sound code, walked with a stack for each kind of edge. Of each position: its edge, whether it is the first of
    that, the position of the other, the number of its node, its shell (none on an outer ring), its component and the
    position after it."""

    def __init__(self, section, t):
        self.edge, self.first, self.mate, self.node, self.shell, self.component, self.after = ([] for _ in range(7))
        self.first_of_shell, trees, starts = [], 0, section[9]
        firsts = {1: iter(section[3]), 0: iter(section[6])}
        for component in range(len(starts) - 1):
            stacks = {1: [], 0: []}
            for p in range(starts[component], starts[component + 1]):
                kind = section[1][p]
                self.component.append(component)
                self.after.append(p + 1 if p + 1 < starts[component + 1] else starts[component])
                self.node.append(len(starts) - 1 + self.edge[stacks[1][-1]] if stacks[1] else component)
                self.shell.append(self.edge[stacks[0][-1]] - t if stacks[0] else None)
                self.first.append(next(firsts[kind]))
                if not self.first[p]:
                    opened = stacks[kind].pop()
                    self.edge.append(self.edge[opened])
                    self.mate.append(opened)
                    self.mate[opened] = p
                    continue
                if kind:
                    self.edge.append(trees)
                    trees += 1
                else:
                    self.edge.append(t + len(self.first_of_shell))
                    self.first_of_shell.append(p)
                self.mate.append(None)
                stacks[kind].append(p)

    def outer(self, p, component):
        """Whether a position is on the outer ring of a component."""
        return self.shell[p] is None and self.component[p] == component

    def signed(self, section, p):
        """The signed edge at a position, as what orders it: its id, and 0 where it is forward."""
        return section[40][self.edge[p]], 0 if self.first[p] == section[10][self.edge[p]] else 1


def name_all(section, form, numbers):
    """Puts the ids by number beside the sections that they are kept in."""
    for number in numbers:
        section[number] = Names(section, form, number).ids()


def fault(data):
    """The refusal of a file, as its number and its text. None where it is lawful."""
    if len(data) % 8:
        return 1, "NotWords { bytes: %d }" % len(data)
    words = struct.unpack("<%dQ" % (len(data) // 8), data)
    if len(words) < 11 or words[0] != MAGIC:
        return 2, "NotPemb { words: %d }" % len(words)
    form = words[1]
    if form not in ID_BITS:
        return 3, "UnknownForm { form: %d }" % form
    want = 15
    if len(words) >= 15:
        want += sum(-(-count * width // 64) for _, count, width in layout(form, *words[6:15]))
    if len(words) != want:
        return 4, "Length { want: %d, have: %d }" % (want, len(words))
    at = wrong(hashlib.sha256(data[48:]).digest(), data[16:48])
    if at is not None:
        return 5, "Digest { at: %d }" % at
    m, t, k, i, r, *back = words[6:15]
    for word, holds in (
        (6, m <= MOST), (7, t <= m), (8, k <= m and (k > 0 or m == 0)), (9, k + t + i <= MOST), (10, r <= MOST),
        (11, back[0] <= k + t + i), (12, back[1] <= m), (13, back[2] <= m - t), (14, back[3] <= r),
    ):
        if not holds:
            return 6, "Count { word: %d, found: %d }" % (word, words[word])
    section, padding = cut_into_sections(words)
    told = sequence_fault(section, t)
    if told is not None:
        return 7, "Sequence(%s)" % told
    for number, right in (
        (2, directory(section[1])), (4, directory(section[3])), (5, tree(section[3])),
        (7, directory(section[6])), (8, tree(section[6])),
    ):
        at = wrong(right, section[number])
        if at is not None:
            return 8, "Directory { section: %d, at: %d, want: %d, found: %d }" % (
                number, at, right[at], section[number][at])
    for number in (30, 40, 50):
        told = Names(section, form, number).fault()
        if told is not None:
            return 9, "Name { section: %d, at: %d }" % told
    name_all(section, form, (30, 40, 50))
    walk = Walk(section, t)
    told = place_fault(section, walk)
    if told is not None:
        return 10, "Place { section: %d, at: %d }" % told
    for component in range(k):
        start = walk.signed(section, section[9][component])
        if any(walk.outer(p, component) and walk.signed(section, p) < start for p in range(2 * m)):
            return 11, "Start { component: %d }" % component
    for number, at in (
        (20, unbalanced(section[20])), (21, wrong(directory(section[20]), section[21])),
        (22, wrong(tree(section[20]), section[22])), Names(section, form, 60).fault() or (60, None),
        (25, next((at for at, region in enumerate(section[25]) if region > r), None)),
    ):
        if at is not None:
            return 12, "RegionPart { section: %d, at: %d }" % (number, at)
    return None if padding is None else (13, "Padding { word: %d }" % padding)


def place_fault(section, walk):
    """The first place or order that is wrong, as its section and where it stands there."""
    faces, places, starts = len(section[50]), section[17], section[9]
    for component, place in enumerate(places):
        if place > faces or (place and walk.first_of_shell[place - 1] >= starts[component]):
            return 17, component
    before = None
    for at, component in enumerate(section[18]):
        if component >= len(places):
            return 18, at
        key = places[component], walk.signed(section, starts[component])
        if before is not None and before >= key:
            return 18, at
        before = key
    before = None
    isolated = section[19]
    for at, place in enumerate(isolated):
        key = place, section[30][len(section[30]) - len(isolated) + at]
        if place > faces or (before is not None and before >= key):
            return 19, at
        before = key
    return None


class Map:
    """The map of a lawful file, and its answers. A signed edge is a pair that orders it: its id, and 0 forward."""

    def __init__(self, data):
        words = struct.unpack("<%dQ" % (len(data) // 8), data)
        self.counts = m, t, k, i, r = words[6:11]
        self.section, _ = cut_into_sections(words)
        name_all(self.section, words[1], (30, 40, 50, 60))
        self.walk = walk = Walk(self.section, t)
        self.at = {walk.signed(self.section, p): p for p in range(2 * m)}
        self.signed = {p: edge for edge, p in self.at.items()}
        self.numbers = {number: {id: x for x, id in enumerate(self.section[number])} for number in (30, 40, 50, 60)}

    def next(self, p):
        return self.walk.after[p if self.section[1][p] else self.walk.mate[p]]

    def turn(self, p):
        return self.walk.after[self.walk.mate[p] if self.section[1][p] else p]

    def face(self, p):
        """The place of the face on the left: 0 for face 0, else one more than its number."""
        shell = self.walk.shell[p]
        return self.section[17][self.walk.component[p]] if shell is None else shell + 1

    def face_id(self, place):
        return self.section[50][place - 1] if place else 0

    def orbit(self, step, p):
        found = [p]
        while step(found[-1]) != p:
            found.append(step(found[-1]))
        return found

    def smallest(self, positions):
        return min(positions, key=self.signed.get)

    def rings(self, place):
        """The rings of a face: its outline, and then those of what lies in it, each from its smallest."""
        here = {self.smallest(self.orbit(self.next, p)) for p in self.signed if self.face(p) == place}
        inside = sorted((p for p in here if self.walk.shell[p] is None), key=self.signed.get)
        return [p for p in here if self.walk.shell[p] is not None], inside

    def bounds(self, place):
        outline, inside = self.rings(place)
        return [p for start in outline + inside for p in self.orbit(self.next, start)]

    def regions(self, place):
        """The region of a face, the one that it lies in, and so on."""
        number = self.section[25][place] - 1
        if number < 0:
            return []
        opened, chain = -1, []
        for bit in self.section[20]:
            if bit:
                opened += 1
                chain.append(opened)
                if opened == number:
                    return [self.section[60][x] for x in reversed(chain)]
            else:
                chain.pop()

    def places(self, texts):
        """The places of faces, None where there is no such face."""
        return [0 if text == "0" else self.numbers[50].get(int(text), -1) + 1 or None for text in texts]

    def items(self, form, texts):
        """The items of an answer, None where the map has no such id."""
        m, t, k, i, r = self.counts
        edges = lambda positions: ["-%d" % id if back else "%d" % id for id, back in map(self.signed.get, positions)]
        if form == "counts":
            return [k + t + i, m, m - t, k, r]
        if form in ("node", "contains"):
            node = self.numbers[30].get(int(texts[0]))
            here = [p for p in self.signed if self.walk.node[p] == node]
            if node is None:
                return None
            if form == "node":
                return edges(self.orbit(self.turn, self.smallest(here))) if here else []
            place = self.section[17][self.walk.component[here[0]]] if here else self.section[19][node - k - t]
            return [self.face_id(place)]
        if form in ("ring", "next", "ends", "sides"):
            p = self.at.get((int(texts[0].lstrip("-")), 1 if texts[0][0] == "-" else 0))
            if p is None:
                return None
            if form in ("ring", "next"):
                return edges(self.orbit(self.next, p) if form == "ring" else [self.next(p)])
            both = p, self.walk.mate[p]
            return [self.section[30][self.walk.node[q]] if form == "ends" else self.face_id(self.face(q)) for q in both]
        places = self.places(texts)
        if None in places:
            return None
        if form == "face":
            return edges(self.bounds(places[0]))
        if form == "adjacent":
            across = [self.face(self.walk.mate[p]) for p in self.bounds(places[0])]
            return [self.face_id(place) for place in dict.fromkeys(across) if place != places[0]]
        if form == "islands":
            first = k + t
            isolated = sorted(self.section[30][first + j] for j in range(i) if self.section[19][j] == places[0])
            return edges(self.rings(places[0])[1]) + ["n%d" % id for id in isolated]
        if form == "regions":
            return self.regions(places[0])
        shared = [region for region in self.regions(places[0]) if region in self.regions(places[1])]
        return shared[:1]

    def line(self, line):
        """What is answered to a line."""
        line = line.removesuffix(b"\r")
        if len(line) > 255:
            return "long\n"
        if not line.strip(b" ") or line.startswith(b"#"):
            return ""
        if not QUERY.fullmatch(line):
            return "bad\n"
        form, *texts = line.decode().split()
        if any(abs(int(text)) > LARGEST_ID for text in texts):
            return "bad\n"
        items = self.items(form, texts)
        return line.decode() + (": unknown" if items is None else ":" + "".join(" %s" % item for item in items)) + "\n"

    def answer(self, script):
        """The answers to a script."""
        return "".join(map(self.line, script.removesuffix(b"\n").split(b"\n")))


ID = rb"[1-9]\d*"
FACE = rb"(0|%s)" % ID
QUERY = re.compile(
    rb"counts|(node|contains) %s|(ring|next|ends|sides) -?%s|(face|adjacent|islands|regions) %s|common %s %s"
    % (ID, ID, FACE, FACE, FACE)
)


SCRIPT = b"""\
counts
node 1
node 2
node 4
node 5
ring 1
ring -2
ring 4
next -3
ends 1
ends -4
sides 1
sides -4
face 0
face 1
face 2
adjacent 0
adjacent 1
adjacent 2
contains 3
contains 4
contains 5
islands 0
islands 1
islands 2
regions 0
regions 1
regions 2
common 1 2
common 2 2
common 0 1
common 1 3
node 9223372036854775807
node 9223372036854775808
ring -9
face 01
node x

# x
   
ends 3"""


def cycle_marks(places):
    """Which numbers have a back pointer, and these: of each cycle of the places with more members than the stride, from
    its least member on, every so manyth one goes back to the one before it."""
    stride, marks, back, seen = (len(places) + 2).bit_length(), [0] * len(places), {}, set()
    for least in range(len(places)):
        cycle = [least]
        while places[cycle[-1]] != least:
            cycle.append(places[cycle[-1]])
        if least not in seen and len(cycle) > stride:
            marked = cycle[::stride]
            for j, number in enumerate(marked):
                marks[number], back[number] = 1, marked[j - 1]
        seen.update(cycle)
    return marks, [back[number] for number in sorted(back)]


def named(form, ids):
    """The seven parts of names with these ids by number, each as its fields and their width."""
    rising, low = sorted(ids), low_width(form, len(ids))
    high = []
    for part in range(1 << len(ids).bit_length()):
        high += [1] * sum(id >> low == part for id in ids) + [0]
    places = [rising.index(id) for id in ids]
    marks, back = cycle_marks(places)
    width = place_width(len(ids))
    return [
        (high, 1), (directory(high), 32), ([id % (1 << low) for id in rising], low), (places, width),
        (marks, 1), (directory(marks), 32), (back, width),
    ]


def packed(fields, width):
    whole = sum(field << width * j for j, field in enumerate(fields))
    return [whole >> 64 * j & (1 << 64) - 1 for j in range(-(-len(fields) * width // 64))]


def island(form):
    """The words of the file of a triangle with a closed edge and an isolated node in it, and two regions."""
    code, trees, duals = [1, 1, 0, 1, 1, 0, 0, 0], [1, 1, 0, 0], [1, 0, 1, 0]
    nodes, edges, faces, regions = (named(form, ids) for ids in ([2, 4, 1, 3, 5], [1, 3, 2, 4], [1, 2], [1, 2]))
    sections = (
        [(code, 1), (directory(code), 32)]
        + [part for bits in (trees, duals) for part in ((bits, 1), (directory(bits), 32), (tree(bits), 64))]
        + [([0, 6, 8], 32), ([0, 0, 0, 0], 1)] + nodes + edges + faces + [([0, 1], 32), ([0, 1], 32), ([2], 32)]
        + [([1, 1, 0, 0], 1), (directory([1, 1, 0, 0]), 32), (tree([1, 1, 0, 0]), 64)] + regions + [([0, 2, 1], 32)]
    )
    counts = [4, 2, 2, 1, 2] + [len(parts[6][0]) for parts in (nodes, edges, faces, regions)]
    words = [MAGIC, form, 0, 0, 0, 0] + counts + [word for section in sections for word in packed(*section)]
    data = bytearray(struct.pack("<%dQ" % len(words), *words))
    seal(data)
    return bytes(data)


def words_of(data):
    return struct.unpack("<%dQ" % (len(data) // 8), data)


def copies():
    """Each damaged copy, with the digest that it has and with the right one."""
    random = Random(SEED)
    files = island(1), island(2)
    for number in range(COPIES):
        data = bytearray(files[number % 2])
        damage(data, random)
        sealed = bytearray(data)
        seal(sealed)
        yield bytes(data), bytes(sealed)


def random_script():
    """A mebibyte of random bytes."""
    random, script = Random(SEED), bytearray()
    for _ in range(1 << 20):
        random.below(1)
        script.append(random.state >> 56)
    return bytes(script)


def letter(told):
    return "." if told is None else "abcdefghijklm"[told[0] - 1]


def line(told):
    return "lawful" if told is None else "G%d %s" % told


EMPTY = 0xCBF29CE484222325


def summed(total, text):
    """One step of FNV-1a over each byte of a text."""
    for byte in text.encode():
        total = (total ^ byte) * 0x100000001B3 % 2**64
    return total


def main():
    assert fault(island(1)) is None and fault(island(2)) is None
    how = sys.argv[1] if len(sys.argv) > 1 else ""
    if how == "words":
        print(*(list(words_of(island(form))) for form in ID_BITS), sep="\n")
        return
    if how == "script":
        answers = Map(island(2)).answer(random_script())
        print(len(answers), answers.count("bad\n"), answers.count("long\n"), "0x%016x" % summed(EMPTY, answers))
        return
    old, right, total, answered, seen = "", "", EMPTY, EMPTY, set()
    for number, (data, sealed) in enumerate(copies()):
        first, second = fault(data), fault(sealed)
        old += letter(first)
        right += letter(second)
        for told, copy in (first, data), (second, sealed):
            total = summed(total, "" if told is None else told[1])
            if told is None:
                answered = summed(answered, Map(copy).answer(SCRIPT))
        if how == "":
            print("%d: %s, %s" % (number, line(first), line(second)))
        elif how == "lawful" and second is None and sealed not in seen:
            seen.add(sealed)
            answers = Map(sealed).answer(SCRIPT)
            whole = words_of(island(words_of(sealed)[1]))
            print([(at, word) for at, word in enumerate(words_of(sealed)) if word != whole[at]])
            print("0x%016x" % summed(EMPTY, answers))
            print(answers)
    if how == "table":
        for letters in old, right:
            print("\n".join(letters[at:at + 100] for at in range(0, COPIES, 100)))
            print()
        print("0x%016x 0x%016x" % (total, answered))
    for name, letters in ("old", old), ("right", right):
        print(name, {each: letters.count(each) for each in sorted(set(letters))}, file=sys.stderr)


main()
