"""Draws a long run to scale: each row has the same number of ticks, and each tick the same width.

Rows in which nobody runs and nothing happens are left out, and a broken line says how many ticks these are. Bars of one
kind are one path of the picture where there are many, so that a picture of some ten thousand ticks stays small. Where there
are many lanes, a row names the tasks that wait all the while, and has no lane of them.
"""

from dataclasses import dataclass
from textwrap import wrap

from pictures.reading import by_priority, chosen
from pictures.svg import (
    BLOCKED, BOLD, FAULT, GRID, INK, LEAVING, LETTER, MADE, OBJECTS, RAISED, RUNNING, SIGNS, SOFT, STATE_SAYS,
    arrow, box, column_of_names, legend, line, name_at, over_others, page_of, sign, stands_in_bar, text_at,
)

WIDTH = 1310  # of the picture, in pixels
LABELS_WIDTH = 170  # the column of the lanes' names, which is wider where these need it
NARROW = 700  # below this width that column is a narrow one, and the margin too
NARROW_LABELS = 84
MARGIN = 18
NARROW_MARGIN = 8
BAR = 13  # the height of a bar; of one above its base priority it is RAISED_BAR
RAISED_BAR = 18
LANE = 27  # from one lane to the next
MANY_LANES = 8  # with more of them, a row names the tasks that wait all the while
AXIS = 24
ROW_GAP = 22
BREAK = 30  # the height of a broken line between rows
MOST_ROWS = 12
MOST_ROOM = 12  # pixels for a tick
MOST_TIPS = 1500  # so many bars, counted in each row, have a text of their own that a browser shows under the mouse
LONG_NAME = 18  # the letters of a name for which there is room
NARROW_NAME = 13


@dataclass
class Row:
    """The ticks of one row, which begin at this place."""

    first: int
    end: int
    scale: float
    left: int
    is_last: bool = False

    def x(self, tick):
        return self.left + (min(max(tick, self.first), self.end) - self.first) * self.scale

    def holds(self, tick):
        return self.first <= tick < self.end or (self.is_last and tick == self.end)

    def meets(self, first, end):
        return first < self.end and end > self.first


def next_step(step):
    """The next number of 1, 2, 5, 10, 20, 50 and so on."""
    return {"1": step * 2, "2": step * 5 // 2, "5": step * 2}[str(step)[0]]


def row_ticks(span, room):
    """How many ticks a row of this width has: a narrow picture has more rows."""
    step, most_rows = 1, MOST_ROWS * max(1, WIDTH // room)
    while step * most_rows < span or step * MOST_ROOM < room:
        step = next_step(step)
    return step


def rows_of(picture, first, end, ticks, cuts, left, room):
    """The rows from the first tick to the end; those that are left out are not among them."""
    rows, idle, scale = [], picture.idle, room / ticks
    for start in range(first - first % ticks, max(end, first + 1), ticks):
        row = Row(max(start, first), min(start + ticks, end), scale, left)
        row.is_last = row.end == end
        quiet = not any(row.first < it < row.end for it in picture.ticks)
        empty = quiet and any(a <= row.first and row.end <= b for a, b in idle)
        if not rows or row.is_last or not (empty or (cuts and quiet)):
            rows.append(row)
    return rows


class Paths:
    """Boxes of one look as one path each."""

    def __init__(self):
        self.paths = {}

    def add(self, look, x, y, width, height):
        self.paths.setdefault(look, []).append(f"M{x:.1f} {y:.1f}h{max(width, 0.7):.1f}v{height:.1f}h-{max(width, 0.7):.1f}z")

    def text(self):
        return [f'<path fill="{look}" d="{"".join(parts)}"/>' for look, parts in self.paths.items()]


class Drawing:
    """The picture as text of SVG."""

    def __init__(self, picture, first, end, wanted=None, ticks=None, cuts=False, width=WIDTH):
        self.picture = picture
        self.first, self.end = first, max(end, first + 1)
        self.width = width
        self.is_narrow = width < NARROW
        self.margin = NARROW_MARGIN if self.is_narrow else MARGIN
        self.names = chosen(picture, by_priority(picture), wanted)
        self.most, wider = (NARROW_NAME, 0) if self.is_narrow else column_of_names([picture.lanes[it].words for it in self.names], LONG_NAME)
        self.left = NARROW_LABELS if self.is_narrow else LABELS_WIDTH + wider
        self.room = width - self.left - (24 if self.is_narrow else 40)
        self.ticks = ticks or row_ticks(self.end - first, self.room)
        self.rows = rows_of(picture, first, self.end, self.ticks, cuts, self.left, self.room)
        objects = [it for it in picture.lanes if it.startswith("p")]
        self.colours = {it: OBJECTS[number % len(OBJECTS)] for number, it in enumerate(sorted(objects, key=lambda it: int(it[1:])))}
        bars = [bar for name in self.names for bar in picture.lanes[name].bars]
        self.has_tips = sum(row.meets(bar.first, bar.end) for row in self.rows for bar in bars) <= MOST_TIPS
        self.out = []
        self.words = []  # of a row: levels and holders
        self.used = set()

    def draw(self):
        y = self.margin + 14
        title = self.picture.title
        self.out.append(text_at(self.margin, y, title, INK, 15, weight="bold"))
        ends = f", ends: {self.picture.why}" if self.picture.why and self.end >= self.picture.end else ""
        told = f"ticks {self.first:,} to {self.end:,}{ends}; {self.ticks:,} ticks a row"
        if self.is_narrow:
            y += 16
            self.out.append(text_at(self.margin, y, told, SOFT, 10))
        else:
            self.out.append(text_at(MARGIN + 9 * len(title) + 14, y, told, SOFT, 12))
        y += 14
        for number, row in enumerate(self.rows):
            if number:
                y = self.draw_break(self.rows[number - 1], row, y)
            y = self.draw_row(row, y) + ROW_GAP
        keys, y = legend(self.used, next(iter(self.colours.values()), OBJECTS[0]), self.margin, y - 4, self.width)
        return page_of(self.width, y + self.margin, self.out + keys)

    def draw_break(self, before, after, y):
        """A broken line where rows are left out."""
        if before.end == after.first:
            return y
        middle, x, path = y + BREAK / 2 - 8, self.left, []
        while x < self.left + self.room:
            path.append(f"L{x:.0f} {middle - 4:.0f}L{x + 6:.0f} {middle + 4:.0f}")
            x += 12
        self.out.append(f'<path d="M{self.left} {middle:.0f}{"".join(path)}" stroke="{BLOCKED}" fill="none"/>')
        says = f"{after.first - before.end:,} ticks left out, {before.end:,} to {after.first:,}"
        self.out.append(box(self.left + 20, middle - 9, 7 + LETTER * len(says), 18, "white"))
        self.out.append(text_at(self.left + 24, middle + 4, says, SOFT, 11))
        return y + BREAK

    def is_alive(self, lane, row):
        if any(row.meets(bar.first, bar.end) for bar in lane.bars) or any(row.holds(mark.tick) for mark in lane.marks):
            return True
        return any(it.object == lane.name and row.meets(it.first, it.end) for it in self.picture.actions)

    def waits_all_the_while(self, lane, row):
        """Whether a task is blocked from the beginning of a row to its end, and nothing else is to be drawn of it."""
        bars = [bar for bar in lane.bars if row.meets(bar.first, bar.end)]
        if len(bars) != 1 or bars[0].state != "block" or bars[0].first > row.first or bars[0].end < row.end:
            return False
        has_links = any(lane.name in (link.first, link.second) and row.holds(link.tick) for link in self.picture.links)
        is_late = any(row.meets(span.late_from, span.end) for span in lane.misses)
        return not (has_links or is_late or any(row.holds(mark.tick) for mark in lane.marks))

    def draw_row(self, row, y):
        lanes = [self.picture.lanes[name] for name in self.names]
        lanes = [lane for lane in lanes if self.is_alive(lane, row)]
        waiting = [lane for lane in lanes if len(self.names) > MANY_LANES and self.waits_all_the_while(lane, row)]
        lanes = [lane for lane in lanes if lane not in waiting]
        tops, at = {}, y + AXIS + 6
        for lane in lanes:
            tops[lane.name] = at + (RAISED_BAR - BAR)
            at += LANE
        self.draw_axis(row, y + AXIS - 6, at)
        paths, self.words = Paths(), []
        for lane in lanes:
            self.draw_lane(lane, row, tops[lane.name], paths)
        for action in self.picture.actions:
            if row.meets(action.first, action.end):
                self.draw_action(action, row, tops, paths)
        self.out += paths.text()
        for link in self.picture.links:
            if row.holds(link.tick) and link.first in tops and link.second in tops:
                start, end = tops[link.first] + BAR / 2, tops[link.second] + BAR / 2
                self.out.append(arrow(link.kind, row.x(link.tick), start, end, f"{link.tick}: {link.says}"))
                self.used.add(link.kind)
        for lane in lanes:
            self.draw_signs(lane, row, tops[lane.name])
        # words come last, so that nothing covers them
        self.out += self.words
        self.out += over_others([text for lane in lanes for text in self.labels_of(lane, row, tops[lane.name])])
        return self.name_waiting(waiting, at)

    def name_waiting(self, waiting, y):
        """The tasks that have no lane in a row, since they wait all the while; the answer is where these words end."""
        if not waiting:
            return y
        says = f"blocked all the while: {', '.join(lane.name for lane in waiting)}"
        lines = wrap(says, int((self.width - 2 * self.margin) / LETTER))
        self.out += [text_at(self.margin, y + 9 + 12 * number, words, SOFT, 9.5) for number, words in enumerate(lines)]
        return y + 12 * len(lines)

    def draw_axis(self, row, y, bottom):
        """The ticks above a row, with light lines down through it."""
        step = 1
        while step * row.scale < 54:
            step = next_step(step)
        for tick in range(row.first + -row.first % step, row.end + 1, step):
            x = row.x(tick)
            self.out.append(line(x, y, x, bottom, GRID))
            self.out.append(text_at(x, y - 4, f"{tick:,}", SOFT, 10, "middle"))
        self.out.append(line(self.left, y, row.x(row.end), y, SOFT, 0.8))

    def draw_lane(self, lane, row, top, paths):
        note = lane.note
        for bar in lane.bars:
            if bar.base and bar.first < row.end:
                note = f"base {bar.base}"
        if lane.name == "agent":
            note = "handlers"
        self.out.append(text_at(self.margin, top + 4, lane.name, self.colours.get(lane.name, INK), 11.5, weight="bold"))
        words = lane.title.partition(" ")[2]
        if self.is_narrow:
            self.out.append(text_at(self.margin + 28, top + 3, note, SOFT, 8))
            self.out.append(name_at(self.margin, top + 14, words, self.most, 9))
        else:
            self.out.append(name_at(self.margin + 38, top + 3, words, self.most, 10))
            self.out.append(text_at(self.margin + 38, top + 13, note, SOFT, 9))
        self.out.append(line(self.left, top + BAR, row.x(row.end), top + BAR, MADE, 0.6))
        for bar in lane.bars:
            if row.meets(bar.first, bar.end):
                self.draw_bar(lane, bar, row, top, paths)
        for first, end, region, why in lane.leavings:
            if row.meets(first, max(end, first + 1)):
                self.used.add("leaving")
                paths.add(LEAVING, row.x(first), top + BAR + 1, max(row.x(end) - row.x(first), 2), 2.4)
        for span in lane.misses:
            if row.meets(span.late_from, span.end):
                self.used.add("late")
                says = f"{lane.title} is late, {span.late_from} to {span.end}"
                self.out.append(box(row.x(span.late_from), top + BAR + 1, row.x(span.end) - row.x(span.late_from), 4, FAULT, says))

    def draw_bar(self, lane, bar, row, top, paths):
        x, end = row.x(bar.first), row.x(bar.end)
        kind = "raised" if bar.state == "run" and bar.is_raised else bar.state
        self.used.add(kind)
        look, y, height = {
            "run": (RUNNING, top, BAR),
            "raised": (RAISED, top - (RAISED_BAR - BAR), RAISED_BAR),
            "ready": ("url(#ready)", top + 4, BAR - 4),
            "block": (BLOCKED, top + BAR - 3, 1.6),
            "made": (MADE, top + BAR - 3, 1.6),
        }[kind]
        if kind == "made":
            self.out.append(line(x, y + 0.8, end, y + 0.8, look, height, 'stroke-dasharray="3 3"'))
        elif self.has_tips:
            level = f" at level {bar.level}" if bar.state in ("run", "ready") and bar.level else ""
            says = f"{lane.title} {STATE_SAYS[bar.state]}{level}{': ' + bar.detail if bar.detail else ''}, {bar.first} to {bar.end}"
            self.out.append(box(x, y, end - x, height, look, says))
        else:
            paths.add(look, x, y, end - x, height)
        # the level stands beside a sign at the beginning of the bar
        at = x + (7 if any(stands_in_bar(mark.kind) and mark.tick == max(bar.first, row.first) for mark in lane.marks) else 2)
        if bar.state == "run" and bar.level and end - at >= BOLD * len(bar.level):
            self.words.append(text_at(at, top + BAR - 3, bar.level, "white", 9.5, weight="bold"))

    def draw_action(self, action, row, tops, paths):
        x, width = row.x(action.first), row.x(action.end) - row.x(action.first)
        colour = self.colours[action.object]
        if action.subject in tops:
            paths.add(colour, x, tops[action.subject] - 1, width, 3.6)
            self.used.add("action")
        if action.object in tops:
            self.used.add("action")
            paths.add(colour, x, tops[action.object] + 1, width, BAR - 1)
            if width > BOLD * len(action.subject) + 4:
                self.words.append(text_at(x + 2, tops[action.object] + BAR - 2, action.subject, "white", 9.5, weight="bold"))

    def draw_signs(self, lane, row, top):
        seen = set()
        for mark in filter(lambda it: row.holds(it.tick), lane.marks):
            x = row.x(mark.tick)
            # of equal signs in one pixel one is enough
            if (mark.kind, round(x)) not in seen:
                seen.add((mark.kind, round(x)))
                tip = f"{mark.tick}: {mark.says or mark.label}" if self.has_tips or mark.kind in ("miss", "fault") else ""
                self.out.append(sign(mark.kind, x, top, top + BAR, tip))
                self.used.add(mark.kind)

    def labels_of(self, lane, row, top):
        """The labels for which there is room above a bar and its dots: of faults and misses first."""
        marks = [mark for mark in lane.marks if row.holds(mark.tick)]
        taken, texts = [(row.x(mark.tick) - 4, row.x(mark.tick) + 4) for mark in marks if mark.kind in ("release", "deadline")], []
        for mark in sorted(marks, key=lambda it: it.kind not in ("miss", "fault")):
            if mark.label and mark.kind not in ("deadline", "setting"):
                x, width = row.x(mark.tick) + 5, LETTER * len(mark.label) + 3
                if x + width < self.width and not any(x < b and x + width > a for a, b in taken):
                    taken.append((x, x + width))
                    texts.append(text_at(x, top - 3.5, mark.label, SIGNS[mark.kind][1], 9))
        return texts
