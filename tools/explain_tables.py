"""The page tables as the calls so far have made them, and for which linear addresses an entry stands."""
import collections
import itertools

Ways = collections.namedtuple("Ways", "found is_cut is_whole")

OPENING_ROOT, DIRECT_MAP_INDEX = 5, 256
ENTRIES = 512
FRAME_BITS = (1 << 40) - 1
# So many of an entry's places are told, so many are counted, and so many links are looked at for them.
SHOWN_PLACES, MOST_PLACES, MOST_LINKS = 3, 1000, 4096


def reach(level):
    """How many bytes an entry of a table of this level stands for."""
    return 1 << 12 + 9 * (level - 1)


def canonical(address):
    return address | 0xFFFF << 48 if address >> 47 & 1 else address


class Tables:
    """Tables by frame with their levels, and the links to each. Of one that no call declared the opening's links aren't
    known, but for the root and, where rows tell where they lie, the tables of the direct map."""

    def __init__(self, rows):
        self.levels, self.links, self.parents, self.ways = {OPENING_ROOT: 4}, {}, {}, {}
        self.known = {OPENING_ROOT}
        for row in rows:
            if row.kind in ("Table(3)", "Table(2)", "Table(1)"):
                self.add_direct_map(int(row.kind[6]), row.first, row.count)

    def add_direct_map(self, level, first, count):
        """Tables that lie behind their parent, as docs/MACHINE.md, 3 and 4, have them."""
        for number in range(count):
            parent = OPENING_ROOT if level == 3 else first - 1
            self.declare(level, first + number)
            self.link(parent, DIRECT_MAP_INDEX if level == 3 else number, first + number)

    def declare(self, level, frame):
        self.levels[frame] = level
        self.known.add(frame)
        self.ways.clear()

    def remove(self, frame):
        self.levels.pop(frame, None)
        self.known.discard(frame)
        self.ways.clear()

    def link(self, table, index, child):
        self.links[table, index] = child
        self.parents.setdefault(child, {})[table, index] = None

    def write(self, table, index, value):
        """An accepted call 3. A link tells the level of a table that isn't known yet."""
        old = self.links.pop((table, index), None)
        if old is not None:
            del self.parents[old][table, index]
        child, level = value >> 12 & FRAME_BITS, self.levels.get(table)
        if value & 1 and level is None and value & 6 == 6 and self.levels.get(child, 4) < 4:
            level = self.levels[table] = self.levels[child] + 1  # no leaf of a table is writable and user
        if value & 1 and level is not None and level > 1:
            self.levels.setdefault(child, level - 1)
            self.link(table, index, child)
        elif old is None:
            return  # a leaf leads to no table
        self.ways.clear()

    def ways_to(self, table):
        """The first address that a table stands for below each root above it, without the sign's bits."""
        if table not in self.ways:
            self.ways[table] = self.find_ways(table)
        return self.ways[table]

    def find_ways(self, table):
        found, is_whole, links, open_ends = [], True, 0, [(table, 0)]
        while open_ends and links < MOST_LINKS and len(found) < MOST_PLACES:
            frame, start = open_ends.pop()
            level = self.levels[frame]
            if level == 4:
                found.append((start, frame))
                continue
            is_whole = is_whole and frame in self.known
            above = list(itertools.islice(self.parents.get(frame, ()), MOST_LINKS))
            links += len(above)
            open_ends += [(parent, start + index * reach(level + 1)) for parent, index in reversed(above)
                          if self.levels.get(parent) == level + 1]
        return Ways(sorted(found), bool(open_ends), is_whole)

    def place_words(self, table, index):
        """For which page or range of addresses an entry stands, below which roots; empty where that isn't known."""
        level = self.levels.get(table)
        if level is None or index >= ENTRIES:
            return ""
        found, is_cut, is_whole = self.ways_to(table)
        if not found:
            return "below no root" if is_whole and not is_cut else ""
        words = ", ".join(range_words(start + index * reach(level), level, [root for _, root in ways])
                          for start, ways in itertools.groupby(found[:SHOWN_PLACES], key=lambda it: it[0]))
        if is_cut:
            words += " and more"
        elif len(found) > SHOWN_PLACES:
            words += f" and {len(found) - SHOWN_PLACES} more"
        return words if is_whole else f"at least {words}"


def range_words(start, level, roots):
    first = canonical(start)
    what = f"page {first:x}" if level == 1 else f"addresses {first:x} to {first + reach(level) - 1:x}"
    *others, last = roots
    return f"{what} below " + (f"roots {', '.join(map(str, others))} and {last}" if others else f"root {last}")
