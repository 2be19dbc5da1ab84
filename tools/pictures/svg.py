"""Shapes of a picture as text of SVG, with the colours, the signs and their legend."""

from html import escape
from textwrap import wrap

RUNNING = "#2f6fb3"
RAISED = "#12355b"
READY = "#f3c969"
BLOCKED = "#9aa3ad"
MADE = "#c9ced4"
INK = "#24292f"
SOFT = "#57606a"
GRID = "#e6e9ed"
FAULT = "#c0262d"
TEXT_PUT = "#1a7f4b"
LEAVING = "#7d4fb3"
CALL = "#8a5a00"
BAND = "#f4f5f7"
OBJECTS = ["#d9622b", "#12908e", "#a83f86", "#7a7a1f", "#5b5fc7", "#9c5b3b"]

LETTER = 5.7  # the mean width of a letter of a label, in pixels
BOLD = 7  # that of a letter of a level or a holder
LONGER_NAME = 14  # by so many letters the column of names may become wider

# the signs of marks, by their kinds: the shape, the colour, and the words of the legend
SIGNS = {
    "release": ("up", INK, "released"),
    "deadline": ("down", FAULT, "deadline"),
    "miss": ("miss", FAULT, "done after its deadline, by so many ticks"),
    "end": ("end", INK, "terminated"),
    "put": ("dot", TEXT_PUT, "puts a text"),
    "call": ("dot", CALL, "calls an entry, or is sent on"),
    "cancel": ("cross", CALL, "a call is cancelled"),
    "trigger": ("bolt", CALL, "the trigger of a select"),
    "setting": ("dot", SOFT, "another base, deadline or quantum; or a release that is begun"),
    "object": ("dot", LEAVING, "a controlled object: + initialized, \u2212 finalized, := assigned"),
    "fault": ("cross", FAULT, "an exception, an abort, or what is held or gone"),
    "harm": ("dot", FAULT, "aborts a task, or a call ends by an exception"),
    "script": ("bolt", FAULT, "from the script"),
}

STATE_SAYS = {"run": "runs", "ready": "is ready", "block": "is blocked", "made": "is made, and not yet activated"}


def text_at(x, y, text, colour=INK, size=11, anchor="start", weight="normal"):
    more = (f' text-anchor="{anchor}"' if anchor != "start" else "") + (f' font-weight="{weight}"' if weight != "normal" else "")
    return f'<text x="{x:.1f}" y="{y:.1f}" fill="{colour}" font-size="{size}"{more}>{escape(text)}</text>'


def column_of_names(names, most):
    """How many letters of the names of lanes are drawn, and how much wider than for the usual number this makes their column."""
    longest = min(max(map(len, names), default=0), most + LONGER_NAME)
    return max(longest, most), max(0, longest - most) * 6


def name_at(x, y, name, most, size):
    """The name of a lane: where it has no room its last part, or the end of that, and the whole one under the mouse."""
    last = name.rpartition(".")[2]
    shown = next((it for it in (name, last) if len(it) <= most), ".." + last[2 - most:])
    text = text_at(x, y, shown, INK, size)
    return text if shown == name else text.replace("</text>", f"<title>{escape(name)}</title></text>")


def over_others(texts):
    """Texts with a white edge, which stays readable over lines."""
    return ['<g stroke="white" stroke-width="3" stroke-linejoin="round" paint-order="stroke">', *texts, "</g>"] if texts else []


def box(x, y, width, height, fill, title="", more=""):
    tip = f"<title>{escape(title)}</title>" if title else ""
    return f'<rect x="{x:.1f}" y="{y:.1f}" width="{max(width, 0.6):.1f}" height="{height:.1f}" fill="{fill}" {more}>{tip}</rect>'


def line(x1, y1, x2, y2, colour, width=1.0, more=""):
    return f'<line x1="{x1:.1f}" y1="{y1:.1f}" x2="{x2:.1f}" y2="{y2:.1f}" stroke="{colour}" stroke-width="{width}" {more}/>'


def stands_in_bar(kind):
    """Whether the sign of a mark stands in the bar, and not above it."""
    return SIGNS[kind][0] != "dot"


def sign(kind, x, top, bottom, says=""):
    """The sign of a mark on a bar whose top and bottom are given."""
    glyph, colour, _ = SIGNS[kind]
    tip = f"<title>{escape(says)}</title>" if says else ""
    middle = (top + bottom) / 2
    if glyph == "up":
        path = f"M{x:.1f} {bottom + 5:.1f} V{top - 4:.1f} M{x - 3.5:.1f} {top + 1:.1f} L{x:.1f} {top - 4.5:.1f} L{x + 3.5:.1f} {top + 1:.1f}"
    elif glyph == "down":
        path = f"M{x:.1f} {top - 5:.1f} V{bottom + 4:.1f} M{x - 3.5:.1f} {bottom - 1:.1f} L{x:.1f} {bottom + 4.5:.1f} L{x + 3.5:.1f} {bottom - 1:.1f}"
    elif glyph in ("cross", "miss"):
        path = f"M{x - 4:.1f} {middle - 4:.1f} L{x + 4:.1f} {middle + 4:.1f} M{x + 4:.1f} {middle - 4:.1f} L{x - 4:.1f} {middle + 4:.1f}"
    elif glyph == "bolt":
        path = f"M{x + 3:.1f} {top:.1f} L{x - 3:.1f} {middle + 1:.1f} H{x + 3:.1f} L{x - 3:.1f} {bottom:.1f}"
    elif glyph == "end":
        return f'<rect x="{x - 1.5:.1f}" y="{top - 2:.1f}" width="3" height="{bottom - top + 4:.1f}" fill="{colour}">{tip}</rect>'
    else:
        return f'<circle cx="{x:.1f}" cy="{top - 1:.1f}" r="2.3" fill="{colour}" stroke="white" stroke-width="0.6">{tip}</circle>'
    width = 2.4 if glyph == "miss" else 1.7
    ends = 'fill="none" stroke-linecap="round" stroke-linejoin="round"'
    # what stands in a bar, in a colour that is not seen there, has a white edge
    edge = f'<path d="{path}" stroke="white" stroke-width="{width + 2.4:.1f}" {ends}/>' if glyph != "up" else ""
    return f'{edge}<path d="{path}" stroke="{colour}" stroke-width="{width}" {ends}>{tip}</path>'


def arrow(kind, x, start, end, says):
    """A call that begins or ends, from one lane to another: solid in a rendezvous, dotted for an entry body."""
    tip = 4 if end < start else -4
    path = f"M{x:.1f} {start:.1f} V{end:.1f} M{x - 3:.1f} {end + tip:.1f} L{x:.1f} {end:.1f} L{x + 3:.1f} {end + tip:.1f}"
    dots = "" if kind == "meeting" else ' stroke-dasharray="1.5 2.5"'
    return f'<path d="{path}" stroke="{CALL}" stroke-width="1.3" fill="none" stroke-opacity="0.8"{dots}><title>{escape(says)}</title></path>'


def page_of(width, height, parts):
    """The whole text of a picture."""
    head = (
        f'<svg xmlns="http://www.w3.org/2000/svg" width="{width}" height="{height:.0f}" viewBox="0 0 {width} {height:.0f}" '
        'font-family="Helvetica, Arial, DejaVu Sans, sans-serif">'
    )
    hatch = (
        '<defs><pattern id="ready" width="6" height="6" patternUnits="userSpaceOnUse" patternTransform="rotate(45)">'
        f'<rect width="6" height="6" fill="{READY}"/><rect width="2" height="6" fill="#fbe7b5"/></pattern></defs>'
    )
    return "\n".join([head, hatch, box(0, 0, width, height, "white"), *parts, "</svg>", ""])


# ---- the legend: what occurs in a picture, and no more

KEYS = [
    ("run", "running (number: active priority)"),
    ("raised", "running above its base priority"),
    ("ready", "ready"),
    ("block", "blocked"),
    ("made", "made, not yet activated"),
    ("action", "protected action"),
    ("leaving", "a scope is being left"),
    ("meeting", "rendezvous begins, ends"),
    ("entry body", "another task runs the entry body"),
    ("late", "late: behind its deadline"),
    *((kind, says) for kind, (_, _, says) in SIGNS.items()),
    ("cut", "ticks left out"),
]


def legend(used, colour_of_object, left, y, width):
    """The keys of what is used, in lines of this width; the second answer is where they end."""
    out, x = [], left
    for name, says in KEYS:
        if name not in used:
            continue
        needs = 34 + LETTER * len(says) + 16
        if x + needs > width and x > left:
            x, y = left, y + 22
        out += key(name, x, y + 2, colour_of_object)
        # a key that is wider than a narrow picture has several lines
        lines = wrap(says, int((width - left - 40) / LETTER))
        out += [text_at(x + 34, y + 13 + 13 * number, words, INK, 11) for number, words in enumerate(lines)]
        if len(lines) > 1:
            x, y, needs = left, y + 22 + 13 * (len(lines) - 1), 0
        x += needs
    return out, y + 18


def key(name, x, top, colour_of_object):
    if name == "run":
        return [box(x, top, 28, 14, RUNNING, more='rx="2"'), text_at(x + 4, top + 11, "15", "white", 10.5, weight="bold")]
    if name == "raised":
        return [box(x, top, 28, 14, RAISED, more='rx="2"'), text_at(x + 4, top + 11, "20", "white", 10.5, weight="bold")]
    if name == "ready":
        return [box(x, top + 2, 28, 10, "url(#ready)", more='rx="2"')]
    if name in ("block", "made"):
        colour, dashes = (BLOCKED, "") if name == "block" else (MADE, 'stroke-dasharray="3 3"')
        return [line(x, top + 7, x + 28, top + 7, colour, 2, dashes)]
    if name == "action":
        return [box(x, top, 28, 14, RUNNING, more='rx="2"'), box(x, top - 1, 28, 4.5, colour_of_object)]
    if name == "leaving":
        return [box(x, top + 6, 28, 2.6, LEAVING)]
    if name in ("meeting", "entry body"):
        return [arrow(name, x + 14, top, top + 14, "")]
    if name == "late":
        return [box(x, top + 5, 28, 4, FAULT)]
    if name == "cut":
        return [box(x, top, 28, 14, BAND, more=f'stroke="{BLOCKED}" stroke-dasharray="2 3"')]
    # a dot stands above a bar, and here in the middle of its line
    return [sign(name, x + 14, top + (8 if SIGNS[name][0] == "dot" else 1), top + 13)]
