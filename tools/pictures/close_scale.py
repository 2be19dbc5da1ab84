"""Draws a short run: each tick as wide as the labels need, and long stretches in which nothing happens are cut."""

from dataclasses import dataclass

from pictures.reading import by_number, chosen
from pictures.svg import (
    BAND, BLOCKED, BOLD, FAULT, GRID, INK, LEAVING, LETTER, MADE, OBJECTS, RUNNING, SIGNS, SOFT, STATE_SAYS,
    arrow, box, column_of_names, legend, line, name_at, over_others, page_of, sign, stands_in_bar, text_at,
)

LABELS_WIDTH = 150  # the column of the lanes' names, in pixels; it is wider where these need it
LONG_NAME = 13  # the letters of a name for which that column has room
ROW_WIDTH = 1060  # the ticks of one row
MARGIN = 18
BAR = 18  # the height of a bar
LABEL_LINE = 12  # the height of one line of labels above a bar
LANE_GAP = 9
AXIS = 24
CUT_LINE = 13  # the line below the axis that tells how many ticks are left out
ROW_GAP = 26
BREAK_WIDTH = 64  # a stretch that is cut
LEVEL_OF_READY = "#6b4e00"  # the colour of a level in the bar of a task that is ready
LONGEST = 40  # ticks; a longer stretch may be cut


# ---- where a tick stands


@dataclass
class Piece:
    """Ticks that stand side by side, or a stretch that is cut."""

    first: int
    end: int
    width: float
    is_cut: bool = False


@dataclass
class Row:
    """The pieces of one row of the picture."""

    pieces: list
    left: float
    is_last: bool = False

    @property
    def first(self):
        return self.pieces[0].first

    @property
    def end(self):
        return self.pieces[-1].end

    def x(self, tick):
        at = self.left
        for piece in self.pieces:
            if tick <= piece.end:
                return at + piece.width * max(0, tick - piece.first) / (piece.end - piece.first)
            at += piece.width
        return at

    def holds(self, tick):
        return self.first <= tick < self.end or (self.is_last and tick == self.end)


def rows_of(ticks, left):
    """The rows of a picture in which something happens at these ticks, beginning at this place, and the width of a tick."""
    ticks = sorted(ticks)
    if len(ticks) == 1:
        ticks.append(ticks[0] + 1)
    gaps = [after - before for before, after in zip(ticks, ticks[1:])]
    short = [gap for gap in gaps if gap <= LONGEST] or [LONGEST]
    room = max(ROW_WIDTH / 3, ROW_WIDTH - 20 - BREAK_WIDTH * sum(gap > LONGEST for gap in gaps))
    scale = max(3.0, min(34.0, max(room / sum(short), 20 * len(short) / sum(short))))
    pieces = []
    for first, gap in zip(ticks, gaps):
        width = gap * scale
        if gap > LONGEST and width > 3 * BREAK_WIDTH:
            pieces.append(Piece(first, first + gap, BREAK_WIDTH, True))
        else:
            pieces += split(first, gap, scale)
    rows = [Row(it, left) for it in balanced(pieces)]
    rows[-1].is_last = True
    return rows, scale


def balanced(pieces):
    """The pieces in as few rows as will do, of about the same width."""
    fewest = len(packed(pieces, ROW_WIDTH))
    limit = sum(piece.width for piece in pieces) / fewest
    while limit < ROW_WIDTH and len(packed(pieces, limit)) > fewest:
        limit += 10
    return packed(pieces, min(limit, ROW_WIDTH))


def packed(pieces, limit):
    """The pieces in rows of at most this width."""
    rows, width = [[]], 0.0
    for piece in pieces:
        if rows[-1] and width + piece.width > limit + 0.5:
            rows.append([])
            width = 0.0
        rows[-1].append(piece)
        width += piece.width
    return rows


def split(first, gap, scale):
    """A stretch as pieces that fit a row."""
    most = max(1, int(ROW_WIDTH / 2 / scale))
    pieces = []
    while gap:
        part = min(gap, most)
        pieces.append(Piece(first, first + part, part * scale))
        first, gap = first + part, gap - part
    return pieces


def ticks_between(picture, first, end):
    """The ticks of the picture from the first to the end, both among them."""
    inside = {it for it in picture.ticks if first <= it <= end}
    return inside | {max(first, 0), min(end, picture.end)}


# ---- drawing


class Labels:
    """Labels above a bar, in as many lines as they need, at most four."""

    def __init__(self, row, most):
        self.row = row
        self.most = most
        self.ends = []
        self.placed = []

    def place(self, mark):
        if not mark.label:
            return
        width = LETTER * len(mark.label) + 5
        x = min(self.row.x(mark.tick), self.most - width)
        for number in range(4):
            if number == len(self.ends):
                self.ends.append(-1.0)
            if x >= self.ends[number]:
                self.ends[number] = x + width
                self.placed.append((x, number, mark))
                return

    @property
    def height(self):
        return LABEL_LINE * len(self.ends)


class Drawing:
    """The picture as text of SVG."""

    def __init__(self, picture, first, end, wanted=None):
        self.picture = picture
        self.names = chosen(picture, by_number(picture), wanted)
        self.most, wider = column_of_names([picture.lanes[it].words for it in self.names], LONG_NAME)
        self.left = LABELS_WIDTH + wider
        self.rows, self.scale = rows_of(ticks_between(picture, first, end), self.left)
        objects = [it for it in by_number(picture) if it.startswith("p")]
        self.colours = {it: OBJECTS[number % len(OBJECTS)] for number, it in enumerate(objects)}
        self.out = []
        self.details, self.words = [], []  # of a row: what tasks wait for, and levels and holders
        self.used = set()
        self.width = max(640, 50 + round(max(row.x(row.end) for row in self.rows)))

    def draw(self):
        first, end = self.rows[0].first, self.rows[-1].end
        y = MARGIN + 14
        title = self.picture.title
        self.out.append(text_at(MARGIN, y, title, INK, 15, weight="bold"))
        ends = f", ends: {self.picture.why}" if self.picture.why and end == self.picture.end else ""
        self.out.append(text_at(MARGIN + 9 * len(title) + 14, y, f"ticks {first} to {end}{ends}", SOFT, 12))
        y += 14
        for row in self.rows:
            y = self.draw_row(row, y) + ROW_GAP
        keys, y = legend(self.used, next(iter(self.colours.values()), OBJECTS[0]), MARGIN, y - 4, self.width)
        return page_of(self.width, y + MARGIN, self.out + keys)

    def lanes_of(self, row):
        """The lanes of a row: those of objects, and those on which something stands."""
        lanes = [self.picture.lanes[name] for name in self.names]
        return [it for it in lanes if it.name.startswith("p") or self.is_alive(it, row)]

    def is_alive(self, lane, row):
        shown = any(bar.end > row.first and bar.first < row.end for bar in lane.bars)
        return shown or any(row.holds(mark.tick) for mark in lane.marks)

    def draw_row(self, row, y):
        lanes = self.lanes_of(row)
        labels, tops = {}, {}
        at = y + AXIS + CUT_LINE * any(piece.is_cut for piece in row.pieces)
        for lane in lanes:
            labels[lane.name] = self.labels_of(lane, row)
            tops[lane.name] = at + labels[lane.name].height + 3
            at = tops[lane.name] + BAR + LANE_GAP
        self.draw_axis(row, y + AXIS - 6, at)
        for lane in lanes:
            self.draw_lane(lane, row, tops[lane.name])
        for action in self.picture.actions:
            self.draw_action(action, row, tops)
        for link in self.picture.links:
            if row.holds(link.tick) and link.first in tops and link.second in tops:
                start, end = tops[link.first] + BAR / 2, tops[link.second] + BAR / 2
                self.out.append(arrow(link.kind, row.x(link.tick), start, end, link.says))
                self.used.add(link.kind)
        for piece in row.pieces:
            if piece.is_cut:
                self.draw_break((row.x(piece.first) + row.x(piece.end)) / 2, y + AXIS + CUT_LINE, at)
        for lane in lanes:
            self.draw_signs(lane, row, tops[lane.name], labels[lane.name])
        # words come last, so that nothing covers them
        self.out += over_others([*self.details, *(text for lane in lanes for text in self.labels_at(tops[lane.name], labels[lane.name]))])
        self.out += self.words
        self.details, self.words = [], []
        return at

    def draw_break(self, x, top, bottom):
        """A broken line through the bars, where ticks are left out."""
        path, y, side = f"M{x - 3:.1f} {top:.1f}", top, 3
        while y < bottom - 6:
            y, side = y + 6, -side
            path += f"L{x - side:.1f} {y:.1f}"
        self.out.append(f'<path d="{path}" stroke="{BLOCKED}" stroke-width="4.5" fill="none"/>')
        self.out.append(f'<path d="{path}" stroke="{BAND}" stroke-width="3" fill="none"/>')

    def labels_of(self, lane, row):
        labels = Labels(row, self.width)
        for mark in sorted(lane.marks, key=lambda it: it.tick):
            if row.holds(mark.tick):
                labels.place(mark)
        return labels

    def draw_axis(self, row, y, bottom):
        """The ticks above a row, with light lines down through it."""
        last, step = -100.0, self.step()
        for piece in row.pieces:
            if piece.is_cut:
                last = self.draw_cut(row, piece, y, bottom)
            else:
                for tick in range(piece.first, piece.end + 1):
                    if tick % step == 0 and row.x(tick) - last >= 6.2 * len(str(tick)) + 8:
                        last = row.x(tick)
                        self.out.append(line(last, y, last, bottom, GRID))
                        self.out.append(text_at(last, y - 3, str(tick), SOFT, 10, "middle"))
        self.out.append(line(self.left, y, row.x(row.end), y, SOFT, 0.8))

    def draw_cut(self, row, piece, y, bottom):
        """A stretch that is left out: its ends are told, and how many ticks there are between."""
        first, end = row.x(piece.first), row.x(piece.end)
        self.out.append(box(first + 5, y, end - first - 10, bottom - y, BAND))
        self.out.append(text_at((first + end) / 2, y + 11, f"{piece.end - piece.first} ticks", SOFT, 9, "middle"))
        for x in (first + 5, end - 5):
            self.out.append(line(x, y, x, bottom, BLOCKED, 0.8, 'stroke-dasharray="2 3"'))
        ends = [(end, piece.end)] if row.pieces[0] is not piece else [(first, piece.first), (end, piece.end)]
        for x, tick in ends:
            self.out.append(text_at(x, y - 3, str(tick), SOFT, 10, "middle"))
        self.used.add("cut")
        return end

    def step(self):
        """The distance of the ticks that are told: 1, 2 or 5 times a power of ten."""
        step = 1
        while step * self.scale < 34:
            step = {"1": step * 2, "2": step * 5 // 2, "5": step * 2}[str(step)[0]]
        return step

    def draw_lane(self, lane, row, top):
        name, _, rest = lane.title.partition(" ")
        self.out.append(text_at(MARGIN, top + 8, name, self.colours.get(lane.name, INK), 12, weight="bold"))
        self.out.append(name_at(MARGIN + 44, top + 7, rest, self.most, 10.5))
        self.out.append(text_at(MARGIN + 44, top + 18, lane.note, SOFT, 9.5))
        if lane.name[0] in "ps":
            self.out.append(line(self.left, top + BAR, row.x(row.end), top + BAR, MADE, 0.7))
        shown = None
        for bar in lane.bars:
            first, end = max(bar.first, row.first), min(bar.end, row.end)
            if first < end:
                beside = 5 if any(stands_in_bar(mark.kind) and mark.tick == first for mark in lane.marks) else 0
                self.draw_bar(lane, bar, row.x(first), row.x(end), top)
                if bar.level != shown or bar.first < row.first:
                    shown = self.level_in(bar, row.x(first), row.x(end), top, beside) or shown
        for first, end, region, why in lane.leavings:
            self.draw_leaving(row, first, end, region, why, top)
        for span in lane.misses:
            first, end = max(span.late_from, row.first), min(span.end, row.end)
            if first < end:
                self.used.add("late")
                says = f"{lane.title} is late, {span.late_from} to {span.end}"
                self.out.append(box(row.x(first), top + BAR + 1, row.x(end) - row.x(first), 4, FAULT, says))

    def draw_bar(self, lane, bar, x, end, top):
        width = end - x
        level = f" at level {bar.level}" if bar.state in ("run", "ready") and bar.level else ""
        says = f"{lane.title} {STATE_SAYS[bar.state]}{level}{': ' + bar.detail if bar.detail else ''}, {bar.first} to {bar.end}"
        self.used.add(bar.state)
        if bar.state == "run":
            self.out.append(box(x, top, width, BAR, RUNNING, says, 'rx="2"'))
        elif bar.state == "ready":
            self.out.append(box(x, top + 3, width, BAR - 6, "url(#ready)", says, 'rx="2"'))
        else:
            colour = BLOCKED if bar.state == "block" else MADE
            dashes = "" if bar.state == "block" else 'stroke-dasharray="3 3"'
            self.out.append(box(x, top + 4, width, BAR - 8, "white", says, 'fill-opacity="0"'))
            self.out.append(line(x, top + BAR / 2, end, top + BAR / 2, colour, 2, dashes))
            if width > LETTER * len(bar.detail) + 8 and bar.detail:
                self.details.append(text_at(x + 4, top + BAR / 2 - 3, bar.detail, SOFT, 9.5))

    def level_in(self, bar, x, end, top, beside):
        """Tells the level of a bar that has room for it, beside a sign at its beginning; the answer is what is told."""
        if bar.state not in ("run", "ready") or end - x < BOLD * len(bar.level) + 3 + beside:
            return None
        colour = "white" if bar.state == "run" else LEVEL_OF_READY
        self.words.append(text_at(x + 3 + beside, top + BAR / 2 + 3.8, bar.level, colour, 10.5, weight="bold"))
        return bar.level

    def draw_leaving(self, row, first, end, region, why, top):
        if end < row.first or first >= row.end and not row.is_last:
            return
        x, until = row.x(max(first, row.first)), row.x(min(end, row.end))
        says = f"region {region} is left ({why}), {first} to {end}"
        self.out.append(box(x, top + BAR + 1.5, max(until - x, 3), 2.6, LEAVING, says))
        self.used.add("leaving")

    def draw_action(self, action, row, tops):
        if action.end <= row.first or action.first >= row.end:
            return
        x, end = row.x(max(action.first, row.first)), row.x(min(action.end, row.end))
        colour = self.colours[action.object]
        holder = self.picture.lanes[action.subject].title
        says = f"{holder} in {self.picture.lanes[action.object].title} ({action.mode}), {action.first} to {action.end}"
        if action.subject in tops:
            self.out.append(box(x, tops[action.subject] - 1, end - x, 4.5, colour, says))
            self.used.add("action")
        if action.object in tops:
            opacity = 'fill-opacity="0.45" rx="2"' if action.mode == "read" else 'rx="2"'
            top = tops[action.object]
            self.out.append(box(x, top + 1, end - x, BAR - 2, colour, says, opacity))
            if end - x > BOLD * len(action.subject) + 4:
                self.words.append(text_at(x + 3, top + BAR / 2 + 3.8, action.subject, "white", 10.5, weight="bold"))
            self.used.add("action")

    def labels_at(self, top, labels):
        return [text_at(x + 3, top - 4 - LABEL_LINE * number, mark.label, SIGNS[mark.kind][1], 10) for x, number, mark in labels.placed]

    def draw_signs(self, lane, row, top, labels):
        for _, number, mark in labels.placed:
            if number:
                at = row.x(mark.tick)
                self.out.append(line(at, top - 3 - LABEL_LINE * number, at, top, SIGNS[mark.kind][1], 0.5, 'stroke-opacity="0.6"'))
        for mark in lane.marks:
            if row.holds(mark.tick):
                self.out.append(sign(mark.kind, row.x(mark.tick), top, top + BAR, f"{mark.tick}: {mark.says or mark.label}"))
                self.used.add(mark.kind)
