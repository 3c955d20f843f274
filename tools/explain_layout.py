"""What lies where by docs/MACHINE.md, sections 3 to 5: frames, linear addresses and the gates' text."""
import collections

from explain_image import Address

Frames = collections.namedtuple("Frames", "first count kind what")

DIRECT_MAP, MOST_MEMORY = 0xFFFF800000000000, 65536 * 4096
NESTED_AREA, HOME, HOME_END = 0xFFFFFF8000000000, 0xFFFFFFFF80000000, 0xFFFFFFFFC0000000
POOL = NESTED_AREA + 0x10000
LEAST_FRAMES, MOST_FRAMES, MOST_PAGES = 512, 65536, 8192

# docs/MACHINE.md, 3: the frames that lie the same at every opening.
FIRST_FRAMES = [Frames(*row) for row in (
    (0, 1, "Fixed", "descriptor table and task-state segment"), (1, 1, "Fixed", "gates' text"),
    (2, 1, "Fixed", "handler slot"), (3, 1, "Trap", "trap stack"), (4, 1, "Fixed", "nested kernel's stack"),
    (5, 1, "Table(4)", "opening root"), (6, 1, "Fixed", "kernel slot's level 3 table"),
    (7, 1, "Fixed", "nested area's level 2 table"), (8, 1, "Fixed", "nested area's level 1 table"),
    (9, 1, "Fixed", "image's level 2 table"), (10, 16, "Guarded", "pool"),
    (26, 38, "Hidden", "set aside for the nested kernel"))]
FRAMES = {frame: row.what for row in FIRST_FRAMES for frame in range(row.first, row.first + row.count)}

# docs/MACHINE.md, 5: offset, length and instruction; the stubs of the vectors are told by stub_words().
GATES = [Address(*row) for row in (
    (0, 1, "pushfq"), (1, 1, "cli"), (2, 3, "mov r10, rsp"), (5, 3, "mov rax, cr0"), (8, 5, "and eax, fffeffff"),
    (13, 3, "mov cr0, rax"), (16, 1, "cli"), (17, 10, "mov rsp, ffffff8000005000"), (27, 2, "the body's place"),
    (29, 3, "mov rax, cr0"), (32, 5, "or eax, 10000"), (37, 3, "mov cr0, rax"), (40, 5, "test eax, 10000"),
    (45, 2, "jz 29"), (47, 3, "mov rsp, r10"), (50, 3, "mov rax, r9"), (53, 1, "popfq"), (54, 1, "ret"),
    (448, 1, "push rax"), (449, 3, "mov rax, cr0"), (452, 5, "or eax, 10000"), (457, 3, "mov cr0, rax"),
    (460, 5, "test eax, 10000"), (465, 2, "jz 449"), (467, 1, "pop rax"), (468, 6, "jmp through the handler slot"),
    (474, 1, "hlt"), (475, 2, "jmp 474"))]
FIRST_STUB, LAST_VECTOR, STUB_SIZE = 64, 47, 8
# docs/MACHINE.md, 5: first offset, bytes and what they are for.
GATE_PARTS = [Address(*row) for row in (
    (0, 27, "entry"), (27, 2, "body"), (29, 26, "exit"), (64, 384, "stubs"), (448, 26, "trap gate"),
    (474, 3, "handler before call 1"))]


def frame_words(frame):
    return f"frame {frame} ({FRAMES[frame]})" if frame in FRAMES else f"frame {frame}"


def stub_words(offset):
    vector, within = divmod(offset - FIRST_STUB, STUB_SIZE)
    if within >= 7:
        return "a breakpoint byte"
    if within < 2:
        return f"stub of vector {vector}: push {vector}" if within == 0 else f"inside the stub of vector {vector}"
    return f"stub of vector {vector}: jmp 448" if within == 2 else f"inside the stub of vector {vector}"


def gate_words(offset):
    if FIRST_STUB <= offset < FIRST_STUB + STUB_SIZE * (LAST_VECTOR + 1):
        return stub_words(offset)
    for row in GATES:
        if row.start <= offset < row.start + row.size:
            return row.name if offset == row.start else f"inside {row.name} at {row.start}"
    return "a breakpoint byte"


def nested_words(offset):
    """What stands at an offset of the nested area (docs/MACHINE.md, 4)."""
    frame, within = divmod(offset, 4096)
    if frame == 0:
        if within < 768:
            return f"descriptor table, gate of vector {within // 16}"
        return "task-state segment" if within >= 1024 else "behind the descriptor table"
    if frame == 1:
        return f"gates, offset {within}: {gate_words(within)}"
    if frame in (2, 3, 4):
        return f"{FRAMES[frame]}, byte {within}"
    if POOL <= NESTED_AREA + offset < POOL + 65536:
        return f"pool, byte {NESTED_AREA + offset - POOL}"
    if frame == 5 and within == 0:
        return "the nested kernel's stack ends here"
    return "nested area, no page"


def direct_words(offset):
    if offset >= MOST_MEMORY:
        return "behind the direct map of the largest memory"
    frame, within = divmod(offset, 4096)
    return f"direct map of {frame_words(frame)}, byte {within}"


def place_words(address, image):
    """What lies at a linear address by the layout, whatever the tables say."""
    if address < 1 << 47:
        return "the lower half"
    if address < DIRECT_MAP:
        return "not canonical"
    if address < DIRECT_MAP + (1 << 39):
        return direct_words(address - DIRECT_MAP)
    if HOME <= address < HOME_END:
        return image.words(address)
    if NESTED_AREA <= address < NESTED_AREA + (1 << 21):
        return nested_words(address - NESTED_AREA)
    return "no page of the opening"


def owner_words(address, image):
    """Whose turn an instruction at the address is: a function's, a part's of the gates, or else a page's."""
    page = address & ~4095
    if page == NESTED_AREA + 4096:
        return "gates, " + next((it.name for it in GATE_PARTS if it.start <= address - page < it.start + it.size),
                                "breakpoint bytes")
    if HOME <= address < HOME_END:
        symbol, segment = image.symbol(address), image.segment(address)
        if symbol:
            return symbol[0]
        return f"page {page:x} ({segment.name if segment else 'home, no segment of the image'})"
    return f"page {page:x} ({place_words(page, image).partition(', byte')[0]})"


def entry_words(value, level):
    """An entry taken apart into frame and bits; its level where the text tells it."""
    if not value & 1:
        return "not present" if value == 0 else f"not present, with other bits: {value:016x}"
    names = {0: "P", 1: "R/W", 2: "U/S", 3: "PWT", 4: "PCD", 5: "A", 6: "D", 8: "G", 63: "XD"}
    names[7] = {None: "bit 7", 1: "PAT"}.get(level, "PS")
    bits = [names.get(bit, f"bit {bit}") for bit in (*range(12), *range(52, 64)) if value >> bit & 1]
    text = f"{frame_words(value >> 12 & (1 << 40) - 1)}, bits {' '.join(bits)}"
    if level == 1:
        rights = "r" + ("w" if value & 2 else "-") + ("-" if value >> 63 else "x") + ("u" if value & 4 else "s")
        return f"a leaf of {text}, so {rights}"
    return f"a link to {text}" if level else text


def image_rows(image):
    """The image's level 1 tables and pages at the opening, as numbers, kinds and words."""
    spans = sorted((it.start // 4096, (it.start + it.size - 1) // 4096, it.name) for it in image.segments)
    pages = sum(last - first + 1 for first, last, _ in spans)
    is_apart = all(it[1] < after[0] for it, after in zip(spans, spans[1:]))
    is_home = spans and spans[0][0] >= HOME // 4096 and spans[-1][1] < HOME_END // 4096
    if not is_home or not is_apart or pages > MOST_PAGES:
        raise ValueError("no run has an image with such segments, so that its frames can't be shown")
    tables = {index for first, last, _ in spans for index in range(first // 512, last // 512 + 1)}
    yield len(tables), "Fixed", "image's level 1 tables"
    for first, last, name in spans:
        yield last - first + 1, "Code" if name == "code" else "Data", f"image's {name}"


def opening_rows(image, frames):
    """The frames of the opening in a row (docs/MACHINE.md, 3); those of every opening, where FRAMES isn't known."""
    if frames is None:
        return FIRST_FRAMES
    rows = FIRST_FRAMES.copy()
    for count, kind, what in (
            (-(-frames // 256), "Hidden", "set aside for descriptors"), *image_rows(image),
            (1, "Table(3)", "direct map's level 3 table"), (1, "Table(2)", "direct map's level 2 table"),
            (-(-frames // 512), "Table(1)", "direct map's level 1 tables")):
        rows.append(Frames(rows[-1].first + rows[-1].count, count, kind, what))
    need = rows[-1].first + rows[-1].count
    if need > frames:
        raise ValueError(f"--frames {frames}: the opening needs {need} frames")
    if need < frames:
        rows.append(Frames(need, frames - need, "Data", "free"))
    return rows
