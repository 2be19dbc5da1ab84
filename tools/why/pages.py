"""The tables of docs/PROFILE.md that are made from the tables of this folder. Each stands between two comments,
`<!-- NAME -->` and `<!-- end of NAME -->`; check/why compares them, and check/why --write writes them."""
import re

import blocks
from names import units

GROUPS = ("Types", "Arrays", "Numbers and names", "Expressions", "Statements", "Subprograms", "Units", "Input and output",
          "Time", "Tasks and priorities", "Policies", "Protected objects", "Handlers", "Other units")


def code(text):
    """A text as code in a cell of a table."""
    return "`" + text.replace("|", "\\|") + "`"


def unit_table():
    rows = ["| unit | clause | declarations |", "|---|---|---|"]
    for unit in units().values():
        has = ", ".join(code(name) for name in unit.listed("has"))
        note = f". {unit.one('note')}" if unit.one("note") else ""
        rows.append(f"| {code(unit.name)} | {unit.one('clause')} | {has}{note} |")
    return "\n".join(rows)


def absent_table():
    rows = ["| of | clause | what is not there |", "|---|---|---|"]
    for block in blocks.read("absent.txt"):
        title = code(block.name) if block.name[:1].isupper() else block.name
        rows.append(f"| {title} | {block.one('clause')} | {', '.join(code(name) for name in block.listed('names'))} |")
    return "\n".join(rows)


def rewrite_table():
    said, forms = [], blocks.read("forms.txt")
    others = {form.one("group") for form in forms} - set(GROUPS)
    if others:
        raise ValueError(f"forms.txt has groups without a place: {', '.join(sorted(others))}")
    for group in GROUPS:
        said += [f"**{group}**", "", "| you write | write instead | code |", "|---|---|---|"]
        for form in forms:
            if form.one("group") == group:
                written, instead = ("<br>".join(code(line) for line in form.all(key)) for key in ("write", "instead"))
                said.append(f"| {written} | {instead} | [{code_of(form.name)}](../check/rewrites/{form.name}) |")
        said.append("")
    return "\n".join(said).strip()


def code_of(name):
    with open(f"{blocks.FOLDER}/../../check/rewrites/{name}/code", encoding="utf-8") as file:
        return file.read().strip()


def tables():
    """The tables by their names."""
    return {"units": unit_table(), "absent": absent_table(), "rewrites": rewrite_table()}


def pattern(name):
    return re.compile(rf"(<!-- {name} -->\n)(.*?)(\n<!-- end of {name} -->)", re.S)


def table_in(page, name):
    """The table of a page, or None."""
    found = pattern(name).search(page)
    return found[2] if found else None


def write(path):
    """Writes the tables of a page anew."""
    with open(path, encoding="utf-8") as file:
        page = file.read()
    for name, table in tables().items():
        page = pattern(name).sub(lambda m, table=table: m[1] + table + m[3], page)
    with open(path, "w", encoding="utf-8") as file:
        file.write(page)
