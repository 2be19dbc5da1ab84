#!/usr/bin/env python3
"""Draws docs/layers.svg: the steps from the bytes of a source to the lines of a trace, and which crates have each.

    tools/layers.py            writes the picture
    tools/layers.py --check    says whether it is what would be written; status 1 if not

A column is a step. Its first box has the code, the second the definitions that its contracts cite, the third the laws that are
proved of these definitions. A crate that crates.txt does not have is left out."""
import pathlib
import re
import sys
from xml.sax.saxutils import escape

TOP = pathlib.Path(__file__).resolve().parent.parent
PICTURE = TOP / "docs" / "layers.svg"

# What is made, the code that makes it, the definitions, the laws.
STEPS = [
    ("tokens", ["ada_lex"], ["ada_lex"], []),
    ("tree", ["ada_parse", "ada_sequences", "ada_statements", "ada_expressions"], ["ada_tree", "ada_grammar"], ["grammar_laws"]),
    ("names", ["ada_naming", "ada_visibility", "ada_entities", "ada_occurrences"], ["ada_regions"], ["source_laws"]),
    ("legality", ["legality", "legality_bodies", "legality_expressions", "legality_types"], ["ada_legality"], ["policy_laws"]),
    ("image", ["image_programs", "image_bodies", "image_calls", "image_layout"], ["ada_image", "profile_image"], ["image_laws", "operand_laws"]),
    ("world", ["machine_kernel", "machine_run", "machine_ticks", "machine_dispatching"], ["profile_machine"],
     ["machine_laws", "world_laws", "ceiling_laws", "release_laws"]),
    ("lines", ["run_writing", "line_writing"], ["trace_text"], ["line_laws"]),
]
PROGRAM = ["annexd", "commands", "run_commands", "ada_front", "ada_verdicts", "event_script"]
BELOW = ["ann_base", "world_tables", "outside_bytes", "outside_host", "outside_memory", "text_lines"]

WIDE, GAP, LEFT, LINE = 160, 12, 96, 17
BANDS = [("code", "#dbe9f6"), ("definitions", "#fdf1d0"), ("laws", "#e2f0dd")]


def known_crates():
    text = (TOP / "crates.txt").read_text()
    return set(re.findall(r"^(\w+):", text, re.MULTILINE))


def text_at(x, y, words, style=""):
    return f'<text x="{x}" y="{y}" {style}>{escape(words)}</text>'


def box(x, y, wide, high, colour, names):
    parts = [f'<rect x="{x}" y="{y}" width="{wide}" height="{high}" rx="4" fill="{colour}" stroke="#888"/>']
    parts += [text_at(x + 8, y + 18 + LINE * i, name, 'class="crate"') for i, name in enumerate(names)]
    return parts


def row(y, title, colour, names, wide):
    """A box over all columns, with names side by side."""
    parts = [text_at(8, y + 19, title)]
    parts.append(f'<rect x="{LEFT}" y="{y}" width="{wide}" height="28" rx="4" fill="{colour}" stroke="#888"/>')
    step = wide / max(1, len(names))
    parts += [text_at(round(LEFT + 8 + step * i), y + 19, name, 'class="crate"') for i, name in enumerate(names)]
    return parts


def picture(crates):
    """The lines of the picture."""
    def kept(names):
        return [name for name in names if name in crates]

    wide = len(STEPS) * WIDE + (len(STEPS) - 1) * GAP
    parts, y = row(10, "program", "#eeeeee", kept(PROGRAM), wide), 58
    for i, (made, *_) in enumerate(STEPS):
        x = LEFT + i * (WIDE + GAP)
        arrow = "bytes → " if i == 0 else "→ "
        parts.append(text_at(x + 4, y, arrow + made + (" → bytes" if i == len(STEPS) - 1 else ""), 'font-weight="bold"'))
    y += 12
    for band, (title, colour) in enumerate(BANDS):
        most = max(len(kept(step[band + 1])) for step in STEPS)
        high = most * LINE + 12
        parts.append(text_at(8, y + 18, title))
        for i, step in enumerate(STEPS):
            names = kept(step[band + 1])
            if names:
                parts += box(LEFT + i * (WIDE + GAP), y, WIDE, high, colour, names)
        y += high + GAP
    parts += row(y, "below all", "#eeeeee", kept(BELOW), wide)
    width, height = LEFT + wide + 10, y + 38
    head = (
        f'<svg xmlns="http://www.w3.org/2000/svg" width="{width}" height="{height}" viewBox="0 0 {width} {height}" '
        'font-family="sans-serif" font-size="13">'
    )
    style = "<style>.crate { font-family: monospace; font-size: 12px }</style>"
    return "\n".join([head, style, f'<rect width="{width}" height="{height}" fill="white"/>', *parts, "</svg>", ""])


def main(words):
    if words not in ([], ["--check"]):
        print(__doc__.split("\n\n")[1], file=sys.stderr)
        return 2
    made = picture(known_crates())
    if words:
        same = PICTURE.exists() and PICTURE.read_text() == made
        if not same:
            print("docs/layers.svg is not what the crates say: run tools/layers.py")
        return int(not same)
    PICTURE.write_text(made)
    return 0


if __name__ == "__main__":
    sys.exit(main(sys.argv[1:]))
