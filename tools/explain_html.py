"""The page that tools/explain writes of a run: its events in their order, the frames by kind at the opening and at the
end, the regions with what calls wrote in them, and the log. It takes nothing from elsewhere and runs no script, and
reads without colours."""
import collections
import html
import itertools

Line = collections.namedtuple("Line", "first last cell")

KINDS = {"Fixed": "F", "Trap": "T", "Table(4)": "4", "Table(3)": "3", "Table(2)": "2", "Table(1)": "1",
         "Guarded": "G", "Hidden": "H", "Code": "C", "Data": "D"}
UNKNOWN = "not told"
MAP_WIDTH, ROW_BYTES = 16, 8
# Of more than these, the first and the last are shown, with a line on how many are left out.
MOST_EVENTS, MOST_ROWS, MOST_BYTES, MOST_CONSOLE = 1000, 512, 64, 20000
MOST_ALIKE = 8
INLINE = ("a", "b", "span")
NEW_REGION = 256

# Text on these grounds has a contrast of 4.5 or more in both schemes (WCAG 2.1, 1.4.3).
COLOURS = """
:root { --ground: #ffffff; --text: #1b1c20; --faint: #55575e; --edge: #82858f; --link: #0b57d0; --bad: #a3161f;
  --fixed: #e2e4ea; --trap: #ffdfb0; --table: #cfe0ff; --guarded: #ffd3d6; --hidden: #c9ccd4; --code: #e4d6ff;
  --data: #e4f4e4; --mark: #fff0a8; }
@media (prefers-color-scheme: dark) { :root { --ground: #15161a; --text: #e9eaee; --faint: #b2b5be; --edge: #7d818c;
  --link: #8ab4f8; --bad: #ff9a9a; --fixed: #3a3d46; --trap: #6a4310; --table: #213f78; --guarded: #7a2730;
  --hidden: #4c505b; --code: #4b3080; --data: #1f4529; --mark: #453a00; } }
"""
STYLE = COLOURS + """
* { box-sizing: border-box; }
body { margin: 0 auto; max-width: 100rem; padding: 0 1rem 3rem; background: var(--ground); color: var(--text);
  font: 1rem/1.5 system-ui, sans-serif; overflow-wrap: anywhere; }
h1 { font-size: 1.5rem; line-height: 1.25; margin: 1.5rem 0 .5rem; }
h2 { font-size: 1.25rem; margin: 2.5rem 0 .5rem; padding-top: .75rem; border-top: 1px solid var(--edge); }
p { max-width: 50rem; margin: .5rem 0; }
a { color: var(--link); }
nav a { display: inline-block; margin: 0 1rem .25rem 0; }
pre, .digits { font-family: ui-monospace, "DejaVu Sans Mono", monospace; font-size: .8125rem; }
pre { white-space: pre-wrap; padding: .75rem; border: 1px solid var(--edge); margin: .5rem 0; }
ol { padding: 0; list-style: none; margin: .75rem 0; }
ul { padding-left: 1.25rem; margin: .75rem 0; }
table { border-collapse: collapse; margin: 1rem 0; }
caption { text-align: left; font-weight: 600; padding-bottom: .375rem; }
th, td { text-align: left; vertical-align: top; padding: .25rem .5rem; border: 1px solid var(--edge);
  overflow-wrap: normal; }
.regions tbody *, .log tbody *, .changes tbody *, .map tbody th, .bytes .band { overflow-wrap: anywhere; }
.regions td:last-child { overflow-wrap: normal; }
th { font-weight: 600; }
thead th { border-bottom-width: 2px; }
.side { display: flex; flex-wrap: wrap; gap: 0 3rem; align-items: flex-start; }
.side > * { min-width: 0; max-width: 100%; }
.line { display: flex; flex-wrap: wrap; gap: .5rem 0; align-items: center; }
.line li { display: flex; align-items: center; max-width: 100%; }
.line li + li::before { content: ""; width: .75rem; border-top: 2px solid var(--edge); }
.line a, .line span { display: block; padding: .0625rem .5rem; border: 1px solid var(--edge); color: var(--text);
  font-size: .875rem; text-decoration: none; }
.line a:hover, .line a:focus { text-decoration: underline; }
.line .accepted a { border-radius: .25rem; background: var(--table); }
.line .refused a { border: 2px solid var(--bad); color: var(--bad); font-weight: 600; }
.line .delivery a { border-radius: 1rem; background: var(--trap); }
.line .console a { border-style: dotted; }
.line .ending span { font-weight: 600; }
.events li { padding: .375rem 0; border-bottom: 1px solid var(--edge); }
.events details > ol { margin: .5rem 0 0 1rem; }
.events p { margin: 0; max-width: none; }
.events .where, .events .what { margin-right: .75rem; color: var(--faint); font-size: .875rem; }
.events .refused .what { color: var(--bad); font-weight: 600; }
.events li:target, .events li:target > details { background: var(--mark); }
.map { table-layout: fixed; width: 100%; max-width: 34rem; }
.map th, .map td { padding: .125rem 0; text-align: center; font-size: .8125rem; }
.map th:first-child { width: 3.25rem; }
.map thead th { font-weight: 400; font-size: .6875rem; }
.map .band { text-align: left; padding-left: .5rem; }
.map .changed { font-weight: 700; text-decoration: underline; outline: 1px solid var(--text); outline-offset: -2px; }
.fixed { background: var(--fixed); } .trap { background: var(--trap); } .table { background: var(--table); }
.guarded { background: var(--guarded); } .hidden { background: var(--hidden); } .code { background: var(--code); }
.data { background: var(--data); }
.bytes td { white-space: nowrap; } .bytes .band { white-space: normal; }
.bytes b { text-decoration: underline; background: var(--mark); }
.left-out { font-style: italic; }
@media (min-width: 56rem) { .events li[id] { display: grid; grid-template-columns: 8rem 5rem 1fr; } }
@media (max-width: 32rem) { th, td { padding: .1875rem .3125rem; font-size: .875rem; }
  pre, .digits { font-size: .75rem; } }
"""


class Markup(str):
    """Text that is HTML already; what isn't is escaped."""


HEAD = Markup("""<meta charset="utf-8">
<meta name="viewport" content="width=device-width, initial-scale=1">
<meta name="color-scheme" content="light dark">
<meta http-equiv="Content-Security-Policy" content="default-src 'none'; style-src 'unsafe-inline'">
""")


def escape(part):
    return part if isinstance(part, Markup) else Markup(html.escape(str(part)))


def tag(name, *parts, **attributes):
    """An element; of an attribute's name outer _ are dropped, and inner ones are dashes."""
    words = "".join(f' {key.strip("_").replace("_", "-")}="{html.escape(str(value))}"'
                    for key, value in attributes.items() if value)
    end = "" if name in INLINE else "\n"
    return Markup(f"<{name}{words}>{''.join(escape(part) for part in parts)}</{name}>{end}")


def count_words(number, one, many=None):
    return f"{number:,} {one if number == 1 else many or one + 's'}"


def shorten(items, most):
    """The first and the last items, and how many between them are left out."""
    items = list(items)
    if len(items) <= most:
        return items, 0, []
    return items[:most // 2], len(items) - most, items[-(most // 2):]


def cut_rows(rows, columns):
    """The rows of a table, long ones cut in the middle."""
    first, out, last = shorten(rows, MOST_ROWS)
    if out:
        first.append(tag("tr", tag("td", f"{count_words(out, 'more row')} here", colspan=columns, class_="left-out")))
    return first + last


def cut_items(items, most, make):
    """What is made of the items of a list, long ones cut in the middle."""
    first, out, last = shorten(items, most)
    cut = [tag("li", tag("span", f"{out:,} more here"), class_="left-out")] * (out > 0)
    return [*map(make, first), *cut, *map(make, last)]


def table(caption, heads, rows, **attributes):
    head = tag("thead", tag("tr", *(tag("th", it, scope="col") for it in heads)))
    return tag("table", tag("caption", caption), head, tag("tbody", *cut_rows(rows, len(heads))), **attributes)


def row(head, *cells):
    """A row of a table; a cell that is markup is a whole <td>."""
    return tag("tr", tag("th", head, scope="row"), *(it if isinstance(it, Markup) else tag("td", it) for it in cells))


def digits(text):
    return tag("td", text, class_="digits")


def bullets(items):
    return tag("ul", *cut_items(items, MOST_ROWS, lambda it: tag("li", it)))


def section(name, title, *parts):
    return tag("section", tag("h2", title, id=name + "-title"), *parts, id=name, aria_labelledby=name + "-title")


# ---- the run: its events in their order

def is_refused(event):
    return event.name == "k" and 0 < int(event.words["ANS"]) < NEW_REGION


def event_class(event):
    if event.name == "k":
        return "refused" if is_refused(event) else "accepted"
    return "delivery" if event.name == "i" else "console"


def event_label(event):
    if event.name == "k":
        return f"call {int(event.words['N'], 16)}" + (f", rule {event.words['ANS']}" if is_refused(event) else "")
    return f"vector {event.words['V']}" if event.name == "i" else "console"


def line_words(first, last):
    return f"line {first}" if first == last else f"lines {first} to {last}"


def turn_words(turns):
    first, last = turns
    return f"turn {first}" if first == last else f"turns {first} to {last}"


def where_words(first, last):
    """The lines of the text, and their turns where a trace tells those."""
    words = line_words(first.first, last.last)
    return f"{words}, {turn_words((first.turns[0], last.turns[1]))}" if first.turns and last.turns else words


def in_groups(told):
    """The events in their order; more than a few alike in a row are one group, others one each."""
    for _, group in itertools.groupby((it for it in told if it.name in "kic"), event_label):
        group = list(group)
        yield from [group] if len(group) > MOST_ALIKE else ([it] for it in group)


def chip(group):
    first = group[0]
    label = event_label(first) + (f", {len(group):,} times" if len(group) > 1 else "")
    title = f"{turn_words(first.turns)}: {first.text}" if first.turns else first.text
    return tag("li", tag("a", label, href=f"#line-{first.first}", title=title[:400]), class_=event_class(first))


def ending_words(told):
    words = {it.name: it.words for it in told if it.name in ("end", "turns")}
    if "end" not in words:
        return "the text has no end of the run"
    turns = count_words(int(words["turns"]["N"]), "turn") if "turns" in words else "turns not told"
    return f"{'halted' if words['end']['WHY'] == 'halted' else 'all STEPS taken'}, {turns}"


def line_of_events(groups, told):
    start, end = (tag("li", tag("span", it), class_="ending") for it in ("opening", ending_words(told)))
    return tag("ol", start, *cut_items(groups, MOST_EVENTS, chip), end, class_="line",
               aria_label="The events of the run, in their order")


def event_item(event, identifier=None):
    return tag("li", tag("span", where_words(event, event), class_="where"), " ",
               tag("span", event_class(event), class_="what"), " ", tag("p", event.text),
               id=identifier, class_=event_class(event))


def group_item(group):
    if len(group) == 1:
        return event_item(group[0], f"line-{group[0].first}")
    label = f"{where_words(group[0], group[-1])}: {event_label(group[0])}, {len(group):,} times"
    return tag("li", tag("details", tag("summary", label), tag("ol", *cut_items(group, MOST_ROWS, event_item))),
               id=f"line-{group[0].first}")


def run_section(groups, told):
    if not groups:
        return section("run", "The run", tag("p", "The text has no calls, no deliveries and no bytes of the console."))
    if any(it.turns for it in told):
        known = "Each event has the turn at which it came, as far as the trace shows it."
    else:
        known = "The text tells no turns but how many there were in all, so the way from one event to the next says " \
                "nothing of the turns between."
    return section(
        "run", "The run", tag("p", f"What happened, in its order. {known}"),
        line_of_events(groups, told))


def turns_section(turns):
    """Whose turns those of the trace were."""
    words, rows = turns
    return section("turns", "Turns", table(f"Turns of the trace, {words}", ("Whose", "Turns", "Share"),
                                           [row(name, f"{number:,}", share) for name, number, share in rows]))


def events_section(groups):
    return section("events", "The events in words",
                   tag("ol", *cut_items(groups, MOST_EVENTS, group_item), class_="events"))


def console_section(told):
    content = b"".join(it.words["BYTES"] for it in told if it.name == "c")
    shown = "".join(chr(it) if it == 10 or 32 <= it < 127 else f"\\x{it:02x}" for it in content[:MOST_CONSOLE])
    # A line's end behind <pre> isn't shown, so one is put there.
    parts = [tag("pre", "\n", shown)] if content else [tag("p", "No byte went to the console.")]
    if len(content) > MOST_CONSOLE:
        more = count_words(len(content) - MOST_CONSOLE, "more byte")
        parts.append(tag("p", f"{more} behind these", class_="left-out"))
    return section("console", "The console", *parts)


# ---- frames by kind

def kinds_of(rows):
    return {frame: it.kind for it in rows for frame in range(it.first, it.first + it.count)}


def kind_class(kind):
    return kind.partition("(")[0].lower() if kind in KINDS else "unknown"


def map_lines(cells, ends):
    """The rows of a map: lines of unlike cells, and bands of rows that are all alike or of which nothing is known."""
    lines = []
    for first in sorted({frame // MAP_WIDTH * MAP_WIDTH for frame in cells}):
        if lines and lines[-1].last + 1 < first:
            lines.append(Line(lines[-1].last + 1, first - 1, (UNKNOWN, False)))
        last = first + MAP_WIDTH - 1 if ends is None else min(first + MAP_WIDTH, ends) - 1
        found = {cells.get(frame, (UNKNOWN, False)) for frame in range(first, last + 1)}
        cell = found.pop() if len(found) == 1 else None
        if cell and lines and lines[-1].cell == cell:
            lines[-1] = lines[-1]._replace(last=last)
        else:
            lines.append(Line(first, last, cell))
    return lines


def map_cell(kind, is_changed):
    return tag("td", KINDS.get(kind, "?"), class_=kind_class(kind) + " changed" * is_changed)


def map_row(line, cells):
    if line.cell and line.last - line.first >= MAP_WIDTH:
        kind, is_changed = line.cell
        words = f"to {line.last}: {kind}" + (", changed" if is_changed else "")
        return row(line.first, tag("td", words, colspan=MAP_WIDTH, class_=f"band {kind_class(kind)}"))
    frames = range(line.first, line.last + 1)
    return row(line.first, *(map_cell(*cells.get(frame, (UNKNOWN, False))) for frame in frames))


def frame_map(caption, kinds, before, ends):
    cells = {frame: (kind, kind != before.get(frame)) for frame, kind in kinds.items()}
    rows = [map_row(it, cells) for it in map_lines(cells, ends)]
    return table(caption, ("from", *range(MAP_WIDTH)), rows, class_="map")


def range_words(it):
    return f"{it.first}" if it.count == 1 else f"{it.first} to {it.first + it.count - 1}"


def counts_by_kind(opening, ending):
    """How many frames are of each kind; the letter of a kind is that of the maps."""
    before, after = collections.Counter(opening.values()), collections.Counter(ending.values())
    rows = [row(kind, tag("td", letter, class_=kind_class(kind)), f"{before[kind]:,}", f"{after[kind]:,}")
            for kind, letter in KINDS.items() if before[kind] or after[kind]]
    return table("How many of these frames are of each kind", ("Kind", "Letter", "Opening", "End"), rows)


def end_words(reader):
    if "root" in reader.seen:
        return "The end is what the text's lines f say."
    words = "The text has no closing section: the end shows what its accepted calls 2 and 4 made."
    return words + " Which frames call 6 declared it doesn't tell." * (reader.counts[6] > 0)


def frames_section(frames, rows, reader):
    opening = kinds_of(rows)
    ending = {**opening, **reader.kinds}
    known = f"FRAMES is {frames}, as --frames said." if frames else \
        "The text doesn't tell FRAMES, and without --frames only the frames that lie alike at every opening are shown."
    changed = [row(it, opening.get(it, UNKNOWN), kind) for it, kind in sorted(reader.kinds.items())
               if kind != opening.get(it)]
    change = tag("p", "The text tells of no frame of another kind at the end.")
    if changed:
        change = table("Frames of another kind at the end", ("Frame", "Opening", "End"), changed, class_="changes")
    return section(
        "frames", "Frames by kind", tag("p", f"{known} {end_words(reader)}"),
        tag("p", f"A row of a map has {MAP_WIDTH} frames, by the letters of their kinds, or stands for rows of one "
                 "kind. What changed is underlined in the second map."),
        tag("div", frame_map("At the opening", opening, opening, frames),
            frame_map("At the end", ending, opening, frames), class_="side"),
        tag("div", counts_by_kind(opening, ending), change,
            table("What the frames are at the opening", ("Frames", "Kind", "What"),
                  [row(range_words(it), it.kind, it.what) for it in rows]), class_="side"))


def entries_section(reader, told):
    lines = [it.text for it in told if it.name == "t"]
    if lines:
        parts = [tag("p", "Those that differ from the opening's, by the text's lines t."), bullets(lines)]
    elif "root" in reader.seen:
        parts = [tag("p", "No entry differs from the opening's.")]
    else:
        parts = [tag("p", "The text has no closing section, and so no lines t.")]
    return section("entries", "Entries of page tables", *parts)


# ---- regions and log

def merged(ranges, size):
    """The ranges of offsets within a size, in order, those that meet made one."""
    whole = []
    for start, end in sorted((start, min(end, size)) for start, end in ranges if start < size):
        if whole and start <= whole[-1][1]:
            whole[-1] = (whole[-1][0], max(whole[-1][1], end))
        else:
            whole.append((start, end))
    return whole


def byte_row(content, start, flags):
    """The digits and the text of some bytes; those that a call wrote stand in <b>."""
    shown, letters = [], []
    for is_written, run in itertools.groupby(range(len(content)), key=lambda it: flags[it]):
        part = bytes(content[it] for it in run)
        shown += [" " if shown else "", tag("b", part.hex(" ")) if is_written else part.hex(" ")]
        letters.append(tag("b", plain(part)) if is_written else plain(part))
    return row(start, tag("td", *shown, class_="digits"), tag("td", *letters, class_="digits"))


def plain(content):
    return "".join(chr(it) if 32 <= it < 127 else "." for it in content)


def untouched_words(content):
    if not any(content):
        return f"{count_words(len(content), 'byte')} that no call of the text wrote, all 00"
    cut = content[:16].hex() + (".." if len(content) > 16 else "")
    return f"{count_words(len(content), 'byte')} that no call of the text wrote: {cut}"


def byte_rows(content, ranges):
    """The rows of a region's bytes; where no call wrote, all of them are one row."""
    flags = bytearray(len(content))
    for start, end in ranges:
        flags[start:end] = b"\1" * (end - start)
    starts = range(0, len(content), ROW_BYTES)
    for is_written, run in itertools.groupby(starts, key=lambda it: any(flags[it:it + ROW_BYTES])):
        run = list(run)
        if is_written:
            yield from (byte_row(content[it:it + ROW_BYTES], it, flags[it:it + ROW_BYTES]) for it in run)
        else:
            words = untouched_words(content[run[0]:run[-1] + ROW_BYTES])
            yield row(run[0], tag("td", words, colspan=2, class_="band"))


def region_bytes(region, ranges):
    caption = f"Region {region.number}, {region.policy}, at the end"
    return table(caption, ("Offset", "Bytes", "As text"), byte_rows(region.content, ranges), class_="bytes")


def life_words(region, reader):
    """When a region was made, and what became of it."""
    if region.freed:
        end = f"freed in line {region.freed}"
    elif region.content is not None:
        end = "lives at the end"
    else:
        end = "without a line r" if "root" in reader.seen else "its end isn't told"
    return f"{region.made}, {end}" if region.made else end


def region_row(region, reader):
    size = sum(end - start for start, end in merged(region.writes, region.size))
    written = f"{count_words(len(region.writes), 'write')}, {count_words(size, 'byte')}" if region.writes else "nothing"
    return row(region.number, f"{region.policy}, {count_words(region.size, 'byte')}", digits(f"{region.place:016x}"),
               written, life_words(region, reader))


def regions_section(reader):
    regions = reader.all_regions
    if not regions:
        return section("regions", "Regions", tag("p", "The text has no region."))
    shown = [(it, merged(it.writes, it.size)) for it in regions if it.content is not None]
    told = [it for it in shown if it[1] or any(it[0].content)]
    first, out, last = shorten(told, MOST_ROWS // 8)
    rest = len(shown) - len(told)
    parts = [region_bytes(*it) for it in (*first, *last)]
    if rest:
        parts.append(tag("p", f"{count_words(rest, 'region')} at the end, in which no call of the text wrote, "
                              f"{'holds' if rest == 1 else 'hold'} 00 alone."))
    if out:
        parts.append(tag("p", f"The bytes of {count_words(out, 'more region')} aren't shown.", class_="left-out"))
    return section(
        "regions", "Regions",
        table("Regions of the text", ("Region", "Policy and size", "Place", "Written", "Life"),
              [region_row(it, reader) for it in regions], class_="regions"),
        tag("p", "Bytes that a call of the text wrote are underlined.") if parts else "",
        tag("div", *parts, class_="side"))


def log_row(told):
    content = bytes.fromhex(told.words["BYTES"])
    cut = ".." if len(content) > MOST_BYTES else ""
    return row(*(told.words[it] for it in ("NUMBER", "REGION", "OFFSET")), f"{len(content):,}",
               digits(content[:MOST_BYTES].hex(" ") + cut), digits(plain(content[:MOST_BYTES]) + cut))


def log_section(told):
    rows = [log_row(it) for it in told if it.name == "l"]
    if not rows:
        return section("log", "The log", tag("p", "The text has no record of the log."))
    heads = ("Record", "Region", "Offset", "Size", "Bytes", "As text")
    return section("log", "The log", table("Records of the log", heads, rows, class_="log"))


# ---- the whole

def counts_section(reader):
    pairs = [part.strip().partition(": ") for line in reader.summary() for part in line.split("; ")]
    return section("counts", "Counts", table("What the text shows", ("Of what", "How many"),
                                             [row(name, number) for name, _, number in pairs]))


def end_section(told):
    lines = [it.text for it in told if it.name in ("end", "turns", "root", "trap")]
    return section("end", "The end", bullets(lines) if lines else tag("p", "The text has no closing section."))


def parts_of(frames, rows, reader, told, turns):
    """The parts of the page, by the names of the links to them."""
    groups = list(in_groups(told))
    yield "run", run_section(groups, told)
    if groups:
        yield "events", events_section(groups)
    if turns:
        yield "turns", turns_section(turns)
    yield "console", console_section(told)
    yield "end", end_section(told)
    yield "frames", frames_section(frames, rows, reader)
    yield "entries", entries_section(reader, told)
    yield "regions", regions_section(reader)
    yield "log", log_section(told)
    yield "counts", counts_section(reader)


def page(names, frames, rows, reader, told, turns):
    """The page of a run: its image and journal have these names, the frames of its opening are these rows, and turns
    are those of its trace, where there is one."""
    image, journal = names
    parts = dict(parts_of(frames, rows, reader, told, turns))
    title = f"The run of {image.rpartition('/')[2]}"
    links = tag("nav", *(tag("a", it.capitalize(), href=f"#{it}") for it in parts), aria_label="Parts of the page")
    header = tag("header", tag("h1", title), tag("p", f"The image {image}, and its run as {journal} has it."), links)
    head = tag("head", HEAD, tag("title", title), tag("style", Markup(STYLE)))
    return f"<!DOCTYPE html>\n{tag('html', head, tag('body', header, tag('main', *parts.values())), lang='en')}"
