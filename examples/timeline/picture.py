"""The picture of a session's columns, as SVG 1.1."""

import math
from xml.sax.saxutils import escape

# The lines as they were typed stand above the lanes, slanting. A picture has at most so many bytes, half of them of its beginning.
LANE, LEFT, NARROW, BAR, LETTER = 44, 80, 26, 14, 5.5
MOST_BYTES, LONGEST_PERIOD, LONGEST_TEXT, LONGEST_TITLE = 1_900_000, 6, 60, 300
COLOURS = {"ran": "#7aa6c2", "stopped": "#c0392b", "counted": "#d9a441", "left": "#333333", "did": "#2e7d32"}
COLOURS.update({"set": "#8e44ad", "bytes": "#8e44ad", "again": "#cccccc"})
# Why a hart stopped: the letter in its disc, and what that is called.
REASONS = {
    "break": ("B", "breakpoint %s"),
    "watch": ("W", "watchpoint %s"),
    "interrupted": ("I", "interrupt"),
    "fault": ("T", "trap %s"),
    "stepped": ("S", "end of a step"),
    "finished": ("F", "return of the function"),
}
LEGEND = (
    ("did", "", "a line of the user"),
    ("set", "", "a register or memory that it wrote"),
    ("ran", "", "a run, as wide as the logarithm of its instructions"),
    ("counted", "", "arrivals at a breakpoint that only counts them"),
    *(("stopped", letter, "stop: " + name.replace(" %s", "")) for letter, name in REASONS.values()),
    ("left", "x", "exit"),
    ("again", "", "what is before it comes again, or is left out"),
)


class Column:
    """What stands in one column: runs of several harts, another entry, or how often what stands before it comes."""

    def __init__(self, kind, number, hart=None, text="", reason="", point="", runs=None, arrivals=None, count=0):
        self.kind, self.number, self.hart, self.text, self.reason, self.point = kind, number, hart, text, reason, point
        self.runs, self.arrivals, self.count = runs or {}, arrivals or {}, count

    @property
    def form(self):
        """What has to be equal where columns repeat: all but how many instructions were executed."""
        told = self.kind, self.hart, self.text, self.reason, self.point, self.count
        return (*told, tuple(sorted(self.runs)), tuple(sorted(self.arrivals.items())))

    @property
    def width(self):
        """A run is as wide as its longest hart's, and what stands in a lane as its text below."""
        below = 5 * min(len(self.text), LONGEST_TEXT) if self.hart is not None else 0
        return max([NARROW, below, *map(bar_width, self.runs.values())])


def bar_width(count):
    return int(10 + 6 * math.log2(count + 1))


def folded(columns):
    """The columns with what repeats once, and behind it how often it comes more."""
    forms = [it.form for it in columns]
    at, kept = 0, []
    while at < len(columns):
        period, times = longest_repeat(forms, at)
        if times < 3:
            kept.append(columns[at])
            at += 1
            continue
        kept += columns[at : at + period]
        kept.append(Column("again", columns[at + period].number, text="%d times more" % (times - 1)))
        at += period * times
    return kept


def longest_repeat(forms, at):
    """The period whose repeats reach farthest from a place on, of equal ones the shortest, and how often it comes."""
    found = [(it, repeats(forms, at, it)) for it in range(1, LONGEST_PERIOD + 1)]
    return max(found, key=lambda it: (it[0] * it[1] if it[1] > 2 else 0, -it[0]))


def repeats(forms, at, period):
    """How often the forms from a place on come one after the other."""
    times, end = 1, at + period
    while forms[end : end + period] == forms[at : at + period] and end + period <= len(forms):
        times, end = times + 1, end + period
    return times


def disc(kind, x, y, title, letter=""):
    """A disc with a letter."""
    inside = '<text x="%d" y="%d" font-size="10" text-anchor="middle" fill="white">%s</text>' % (x, y + 4, letter) if letter else ""
    title = escape(title[:LONGEST_TITLE])
    return '<g><circle cx="%d" cy="%d" r="7" fill="%s"/>%s<title>%s</title></g>' % (x, y, COLOURS[kind], inside, title)


def short(text):
    """A text that isn't long, for SVG."""
    return escape(text if len(text) <= LONGEST_TEXT else text[: LONGEST_TEXT - 2] + "..")


def slanting(x, y, text):
    """A text that rises to the right."""
    return '<text transform="translate(%d %d) rotate(-40)" font-size="10">%s</text>' % (x, y, short(text))


def bar(x, y, count):
    """A run of so many instructions in a lane."""
    shape = '<rect x="%d" y="%d" width="%d" height="%d" fill="%s"/>' % (x, y - BAR // 2, bar_width(count), BAR, COLOURS["ran"])
    return shape + '<text x="%d" y="%d" font-size="8">%s</text>' % (x, y - BAR // 2 - 2, "{:,}".format(count))


def of_runs(column, x, lanes):
    """The runs, and below them the arrivals that were counted meanwhile."""
    shapes = [bar(x, lanes[hart], count) for hart, count in sorted(column.runs.items())]
    for hart, count in sorted(column.arrivals.items()):
        y = lanes[hart] + BAR // 2
        shapes.append('<circle cx="%d" cy="%d" r="4" fill="%s"/>' % (x + 5, y, COLOURS["counted"]))
        shapes.append('<text x="%d" y="%d" font-size="8">%s</text>' % (x + 11, y + 6, "{:,}".format(count)))
    return shapes


def of_stop(column, x, lanes):
    """A stop: its reason, and where it was."""
    letter, name = REASONS.get(column.reason, ("?", column.reason))
    name = name % column.point if "%s" in name else name
    where = '<text x="%d" y="%d" font-size="8" text-anchor="middle">%s</text>' % (x, lanes[column.hart] + 17, short(column.text))
    return [disc("stopped", x, lanes[column.hart], " ".join(["stopped:", name, column.text]).strip(), letter), where]


def shapes_of(column, x, lanes):
    """What is drawn of a column."""
    top = lanes[0] - LANE // 2
    middle = x + (NARROW if column.hart is None else column.width) // 2
    if column.kind == "ran":
        return of_runs(column, x, lanes)
    if column.kind in ("again", "left out"):
        text = column.text if column.kind == "again" else "%s entries left out" % "{:,}".format(column.count)
        frame = '<rect x="%d" y="%d" width="%d" height="%d" fill="#e4e4e4"/>' % (x + 4, top, NARROW - 8, lanes[-1] - top + LANE // 2)
        return ['<g>%s%s<title>%s</title></g>' % (frame, slanting(middle, top - 8, text), escape(column.text))]
    if column.hart is None:
        place = middle, top - 14, middle, lanes[-1] + BAR
        line = '<line x1="%d" y1="%d" x2="%d" y2="%d" stroke="#bbbbbb" stroke-dasharray="2 3"/>' % place
        return [line, disc(column.kind, middle, top - 20, column.text), slanting(middle + 4, top - 30, column.text)]
    if column.kind == "stopped":
        return of_stop(column, middle, lanes)
    below = '<text x="%d" y="%d" font-size="8" text-anchor="middle">%s</text>' % (middle, lanes[column.hart] + 17, short(column.text))
    return [disc(column.kind, middle, lanes[column.hart], column.text, "x" if column.kind == "left" else ""), below]


def within(columns, lanes):
    """The columns that there is room for, from the beginning and from the end, with a column that counts what is between."""
    sizes = [sum(map(len, shapes_of(it, 100_000, lanes))) + 20 for it in columns]
    if sum(sizes) <= MOST_BYTES:
        return columns
    first, last, room = 0, len(columns), MOST_BYTES // 2
    while room >= sizes[first]:
        room, first = room - sizes[first], first + 1
    room = MOST_BYTES // 2
    while room >= sizes[last - 1]:
        room, last = room - sizes[last - 1], last - 1
    count = columns[last].number - columns[first].number
    return [*columns[:first], Column("left out", columns[first].number, count=count, text="--from and --to draw them"), *columns[last:]]


def legend(y):
    """What the marks mean, one below the other."""
    shapes = []
    for number, (kind, letter, text) in enumerate(LEGEND):
        x, at = LEFT + 300 * (number % 3), y + 22 * (number // 3)
        if kind in ("ran", "again"):
            shapes.append('<rect x="%d" y="%d" width="22" height="%d" fill="%s"/>' % (x - 11, at - BAR // 2, BAR, COLOURS[kind]))
        else:
            shapes.append(disc(kind, x, at, text, letter))
        shapes.append('<text x="%d" y="%d" font-size="10">%s</text>' % (x + 16, at + 4, text))
    return shapes


def drawn(harts, columns):
    """The whole picture."""
    columns = folded(columns)
    longest = max([20, *(min(len(it.text), LONGEST_TEXT) for it in columns if it.hart is None)])
    top = 50 + int(longest * LETTER * math.sin(math.radians(40)))
    lanes = [top + LANE * hart + LANE // 2 for hart in range(harts)]
    columns, bottom, x, shapes = within(columns, lanes), top + LANE * harts + 14, LEFT, []
    for number, column in enumerate(columns):
        shapes += shapes_of(column, x, lanes)
        if number % 8 == 0:
            shapes.append('<text x="%d" y="%d" font-size="8" fill="#777777">%s</text>' % (x, bottom, "{:,}".format(column.number)))
        x += column.width
    width, height = max(x + int(longest * LETTER), LEFT + 900), bottom + 22 * ((len(LEGEND) + 2) // 3) + 24
    head = '<svg xmlns="http://www.w3.org/2000/svg" width="%d" height="%d" font-family="sans-serif" font-size="12">' % (width, height)
    names = ['<text x="8" y="%d">lines</text>' % (top - 16), '<text x="8" y="%d" font-size="10" fill="#777777">entries</text>' % bottom]
    for hart, y in enumerate(lanes):
        names.append('<text x="8" y="%d">thread %d</text>' % (y + 4, hart + 1))
        names.append('<line x1="%d" y1="%d" x2="%d" y2="%d" stroke="#dddddd"/>' % (LEFT, y, x, y))
    return "\n".join([head, '<rect width="100%" height="100%" fill="white"/>', *names, *shapes, *legend(bottom + 26), "</svg>", ""])
