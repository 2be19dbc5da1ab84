"""Tables of text: columns that are as wide as what stands in them; numbers stand to the right."""


def table(head, rows):
    """The lines of a table. A cell that is None is shown as a minus sign."""
    shown = [["-" if cell is None else str(cell) for cell in row] for row in rows]
    numeric = [all(row[n].removeprefix("-").isdigit() or row[n] in ("-", "", "miss") for row in shown) for n in range(len(head))]
    wide = [max([len(head[n])] + [len(row[n]) for row in shown]) for n in range(len(head))]
    lines = []
    for row in [list(head)] + shown:
        cells = [cell.rjust(w) if right else cell.ljust(w) for cell, w, right in zip(row, wide, numeric)]
        lines.append("  ".join(cells).rstrip())
    return lines
