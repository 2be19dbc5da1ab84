#!/usr/bin/env python3
"""Makes the data of a program for the profile machine from its source.

    tools/program_data.py --name NAME --source FILE [--script FILE] [--ticks N] --trace FILE [--title TEXT] --out FILE
    tools/program_data.py --rows FOLDER --crate FOLDER
    tools/program_data.py --rows FOLDER --crate FOLDER --compare

The second form makes the modules of all worked rows of a crate, `specs/Rows/` with its list, and `src/rows/`. The third makes
the modules of the rows, writes nothing, and compares them with those that stand in the crate: the program, the script and the
trace of each, and whether the whole file is the same; a law may be written by hand. A row is a folder with the files `source`,
`script` (if it has one), `ticks` (the bound, if it matters) and `trace`.

The image is that of the definitions (`judged` of ada_verdicts, see definitions/interpreter.py), and so are the items of the
script. The output is a file of definitions in antt: the program, its script, the bound, the trace that FILE holds, and the law
that the machine's run is this trace. The same input gives the same output, byte by byte.

The files are laid out as `rt fmt` does it, with the imports that each needs.

Nothing is proved of this script. What it writes is checked in, and stands beside the source from which it came.
"""
import argparse
import functools
import os
import re
import sys

sys.dont_write_bytecode = True
HERE = os.path.dirname(os.path.abspath(__file__))
sys.path.insert(0, os.path.join(HERE, "definitions"))
import interpreter    # noqa: E402


def number(value):
    return f"(pos {value})" if value >= 0 else f"(negsuc {-value - 1})"


def truth(value):
    return "true" if value else "false"


def text(bytes_):
    if not bytes_:
        return "[]"
    body = bytes_.replace("\\", "\\\\").replace('"', '\\"')
    return f'(codes "{body}")'


def items(parts):
    return "[]" if not parts else "(" + " ∷ ".join(parts) + " ∷ [])"


def option(part):
    return "None" if part is None else f"(Some {part})"


# ---------------------------------------------------------------- images

# the files whose types an image has, and the types that are lists
TYPES = (*(f"profile_image/src/{f}.rt"
           for f in ("image", "statements", "expressions", "declarations", "values", "numbers", "script_items")),
         "ann_base/src/exceptions.rt", "ann_base/src/identities.rt")
LISTS = {"Text": "ImageList<u8>", "Actuals": "ImageList<Actual>", "SelectAlternatives": "ImageList<SelectAlternative>"}


def crate_file(path):
    with open(os.path.join(interpreter.ROOT, "crates", *path.split("/")), encoding="utf-8") as f:
        return f.read()


def parts_of(text_):
    """What stands between the outermost commas."""
    out, depth, last = [], 0, ""
    for c in text_:
        depth += (c in "<({") - (c in ">)}")
        if c == "," and depth == 0:
            out.append(last.strip())
            last = ""
        else:
            last += c
    return [x for x in out + [last.strip()] if x]


def fields_of(text_):
    return [tuple(x.strip() for x in part.removeprefix("pub ").split(":")) for part in parts_of(text_)]


@functools.lru_cache(None)
def types():
    """The types of the code: structs as lists of fields with their types, enums as the types of their variants' arguments."""
    structs, enums = {}, {}
    for path in TYPES:
        code = re.sub(r"//[^\n]*|#\[[^\n]*\]", "", crate_file(path))
        for name, body in re.findall(r"pub struct (\w+) \{(.*?)\n\}", code, re.S):
            structs[name] = fields_of(body)
        for name, kind in re.findall(r"pub struct (\w+)\(pub (\w+)\);", code):
            structs[name] = [("0", kind)]
        for name, body in re.findall(r"pub enum (\w+) \{(.*?)\n\}", code, re.S):
            enums[name] = {}
            for variant in parts_of(body):
                n, arguments = re.match(r"(\w+)\s*(.*)", variant, re.S).groups()
                inside = arguments[1:-1]
                enums[name][n] = [f[1] for f in fields_of(inside)] if arguments.startswith("{") else parts_of(inside)
    return structs, enums


@functools.lru_cache(None)
def shorthands():
    """For each struct the shorthand that makes it, and the fields that are its arguments."""
    out = {}
    pattern = r"abbrev pub (\w+) :[^=]*?(\w+)\n\1((?: \w+)*) = record \{([^}]*)\}"
    for name, of_type, arguments, record in re.findall(pattern, crate_file("profile_machine/specs/Notation.antt")):
        by_argument = {given: field for field, given in re.findall(r"(\w+) = (\w+)", record)}
        out[of_type] = name, [by_argument[x] for x in arguments.split()]
    return out


@functools.lru_cache(None)
def prefixes_of_types():
    """By which name the variants of an enum are known in the files that are written: `line.` of Event, and none of Value."""
    return {name: f"{alias}." for name, alias in re.findall(r"\.(\w+)\.TheVariants as (\w+)", HEAD)}


def written(kind, x):
    """A value of a type of the code, in the notation."""
    structs, enums = types()
    kind = LISTS.get(kind, kind)
    inner = re.fullmatch(r"(ImageList|Option)<(.*)>", kind)
    if kind == "ImageList<u8>":
        return text(bytes(x).decode("latin-1"))
    if inner and inner[1] == "ImageList":
        return items([written(inner[2], y) for y in x])
    if inner:
        return option(None if x.n == "None" else argument(inner[2], x.a[0]))
    if kind == "bool":
        return truth(x)
    if kind in ("i32", "i64", "Moment"):
        return number(x)
    if kind in structs:
        name, fields = shorthands()[kind]
        of = dict(structs[kind])
        whole = " ".join([name, *(argument(of[f], x.d[f]) for f in fields)])
        return f"({whole})" if fields == ["0"] else whole
    if kind in enums:
        return " ".join([prefixes_of_types().get(kind, "") + x.n, *(argument(t, y) for t, y in zip(enums[kind][x.n], x.a))])
    return str(x)


def argument(kind, x):
    """The same as an argument; the form of a statement has brackets always."""
    body = written(kind, x)
    return f"({body})" if kind == "StatementForm" or " " in body and not body.startswith("(") else body


class Program:
    """The image of an accepted source by the definitions."""

    def __init__(self, source):
        self.image, refusal = interpreter.judged(source)
        if refusal is not None:
            raise ValueError(interpreter.refusal_text(refusal).decode().strip())

    def data(self):
        """The lists of the image, as (name, texts), and its other fields."""
        of = dict(types()[0]["Image"])
        lists = [(f, [written(re.fullmatch(r"ImageList<(.*)>", t)[1], x) for x in self.image.d[f]])
                 for f, t in of.items() if t.startswith("ImageList<")]
        return lists, *(argument(of[f], self.image.d[f]) for f in ("policies", "environment", "main"))


# ---------------------------------------------------------------- scripts and traces

def script_item(item):
    return f"(pos {item.d['0']}, {written('Item', item.d['1'])})"


def who(word):
    return "agent" if word == "agent" else f"(t {word[1:]})"


def entry_name(word):
    subject, _, name = word.partition(".")
    kind = "of_task" if subject[0] == "t" else "of_object"
    return f"({kind} {subject[1:]} {text(name)})"


def event(words, rest):
    """One line's words behind its tick; `rest` is the text behind the third word."""
    if words[0] in ("idle", "end", "release", "interrupt", "port", "mask", "unmask", "masked"):
        w = words[0]
        if w == "idle":
            return "line.Idle"
        if w == "end":
            if words[1] == "exception":
                return f"line.End (end.Exception {text(words[2])})"
            return f"line.End end.{words[1].capitalize()}"
        if w == "release":
            subject, _, name = words[2].partition(".")
            return f"line.Release {words[1]} (p {subject[1:]}) {text(name)}"
        if w == "port":
            return f"line.Port {words[1]} {number(int(words[2]))}"
        return f"line.{w.capitalize()} {words[1]}"
    s, w, a = words[0], words[1], words[2:]
    n = s[1:]
    if w == "new":
        return f"line.New ({'created.Task (task' if s[0] == 't' else 'created.Object (p'} {n})) {text(a[0])} {a[1]}"
    if w == "ready":
        deadline = None if len(a) == 2 else number(int(a[2]))
        return f"line.Ready {who(s)} {a[0]} {a[1].capitalize()} {option(deadline)}"
    if w == "block":
        return f"line.Block {who(s)} waits.{a[0].capitalize()}"
    if w == "run":
        return f"line.Run {who(s)}"
    if w in ("base", "deadline"):
        value = a[0] if w == "base" else number(int(a[0]))
        return f"line.{w.capitalize()} (task {n}) {value}"
    if w in ("quantum", "done", "trigger"):
        return f"line.{w.capitalize()} (task {n})"
    if w == "raise":
        return f"line.Raise {who(s)} {text(a[0])}"
    if w == "put":
        return f"line.Put {who(s)} {text(rest)}"
    if w == "call":
        return f"line.Call (task {n}) (call {a[0]}) {entry_name(a[1])} {a[2]}"
    if w == "start":
        return f"line.Start {who(s)} (call {a[0]})"
    if w == "finish":
        how = {"ok": "finished.Ok", "requeue": "finished.Requeue"}.get(a[1], f"(finished.Raised {text(a[1])})")
        return f"line.Finish {who(s)} (call {a[0]}) {how}"
    if w in ("cancel", "gone"):
        return f"line.{w.capitalize()} (task {n}) (call {a[0]})"
    if w in ("enter", "held"):
        return f"line.{w.capitalize()} {who(s)} (p {a[0][1:]}) {a[1].capitalize()}"
    if w == "exit":
        return f"line.Exit {who(s)} (p {a[0][1:]})"
    if w == "abort":
        return f"line.Abort (task {n}) (task {a[0][1:]})"
    if w == "leave":
        return f"line.Leave {who(s)} (region {a[0]}) leaves.{a[1].capitalize()}"
    if w == "init":
        return f"line.Init {who(s)} {a[0]} (region {a[1]}) {text(a[2])}"
    if w in ("final", "replace"):
        return f"line.{w.capitalize()} {who(s)} {a[0]}"
    if w == "left":
        return f"line.Left {who(s)} (region {a[0]})"
    assert w in ("serve", "served"), w
    return f"line.{w.capitalize()} {a[0]}"


def trace_item(raw):
    words = raw.split(" ")
    rest = " ".join(words[3:])
    return f"({words[0]}, {event(words[1:], rest)})"


# ---------------------------------------------------------------- output

# all that a program and its trace may name
HEAD = """\
use Rattle.std.specs.Prelude.{◌≡◌, ℕ, ℤ, pos, negsuc, List, [], ◌∷◌, Some, None, true, false, codes, refl}
use Rattle.ann_base.specs.declared.exceptions.Raised.TheVariants as exception
use Rattle.trace_text.specs.declared.events.Event.{Event}
use Rattle.trace_text.specs.declared.events.Event.TheVariants as line
use Rattle.trace_text.specs.declared.events.Created.TheVariants as created
use Rattle.trace_text.specs.declared.events.Ended.TheVariants as end
use Rattle.trace_text.specs.declared.events.Finished.TheVariants as finished
use Rattle.trace_text.specs.declared.events.Leaves.TheVariants as leaves
use Rattle.trace_text.specs.declared.events.Mode.TheVariants.{Read, Write}
use Rattle.trace_text.specs.declared.events.QueueEnd.TheVariants.{Head, Tail}
use Rattle.trace_text.specs.declared.events.Waits.TheVariants as waits
use Rattle.profile_image.specs.declared.script_items.Item.{Item}
use Rattle.profile_image.specs.declared.script_items.Item.TheVariants as item
use Rattle.profile_image.specs.declared.image.Image.{Image}
use Rattle.profile_image.specs.declared.image.Dispatching.TheVariants.{FifoWithinPriorities, RoundRobinWithinPriorities, EdfAcrossPriorities}
use Rattle.profile_image.specs.declared.image.Queuing.TheVariants as queuing
use Rattle.profile_image.specs.declared.values.Value.TheVariants.{Whole, Truth, Literal, Ticks, Task, Thing}
use Rattle.profile_image.specs.declared.values.Constraint.TheVariants.{Free, Whole, Truth, Literal, Ticks}
use Rattle.profile_image.specs.declared.expressions.Expression.TheVariants.{Known, Variable, Thing, Unary, Binary, Count, Clock, Span, SameTicks, CurrentTask, ExecutionTime, Priority, Deadline, TimeOfEvent, TimeRemaining, BudgetHasExpired, BudgetRemaining, PortValue}
use Rattle.profile_image.specs.declared.expressions.ObjectName.TheVariants.{Declared, OwnComponent, Component}
use Rattle.profile_image.specs.declared.expressions.UnaryOperator.TheVariants as unary
use Rattle.profile_image.specs.declared.expressions.BinaryOperator.TheVariants as binary
use Rattle.profile_image.specs.declared.declarations.DeclarationKind.TheVariants as kind
use Rattle.profile_image.specs.declared.declarations.Initial.TheVariants as initial
use Rattle.profile_image.specs.declared.declarations.EntryUnit.TheVariants as unit
use Rattle.profile_image.specs.declared.declarations.ExceptionChoice.TheVariants as exception_choice
use Rattle.profile_image.specs.declared.statements.StatementForm.TheVariants as form
use Rattle.profile_image.specs.declared.statements.Choice.TheVariants as choice
use Rattle.profile_image.specs.declared.statements.Actual.TheVariants as actual
use Rattle.profile_image.specs.declared.statements.Callee.TheVariants as callee
use Rattle.profile_image.specs.declared.statements.Destination.TheVariants as destination
use Rattle.profile_image.specs.declared.statements.EntryOwner.TheVariants as owner
use Rattle.profile_image.specs.declared.statements.SelectKind.TheVariants as select
use Rattle.profile_image.specs.declared.statements.Piece.TheVariants as piece
use Rattle.profile_image.specs.declared.statements.Setting.TheVariants as setting
use Rattle.profile_machine.specs.Notation.{decl, expr, stmt, scope, subprogram, task_unit, protected_unit, entry, controlled_type, enumeration, task, call, p, region, t, agent, of_task, of_object, declaration, variable, statement, alternative, select_alternative, handler, handler_name, cell_run, scope_text, formal, subprogram_text, task_unit_text, attachment, protected_unit_text, entry_body, entry_text, controlled_text, enumeration_text, dispatching_range, policies, main_procedure}
use Rattle.profile_machine.specs.Run.{run_of}
use Rattle.profile_machine.specs.Computing.{computing}
use Rattle.std.specs.Fmt.{digits}
"""


SYMBOLS = {"◌≡◌": "≡", "◌∷◌": "∷", "[]": "[]"}


def needed(line, words, prefixes, code):
    """A line of imports without the names that the code does not have; None where it needs none of them."""
    path, brace, names = line.partition(".{")
    if not brace:
        return line if line.rsplit(" ", 1)[1] in prefixes else None
    kept = [n for n in names[:-1].split(", ") if (SYMBOLS[n] in code if n in SYMBOLS else n in words)]
    return f"{path}.{{{', '.join(kept)}}}" if kept else None


def with_imports(head, text_):
    """The definitions behind the imports that they need."""
    code = re.sub(r'"(?:\\.|[^"\\])*"', '""', re.sub(r"^--.*$", "", text_, flags=re.M))
    words = set(re.findall(r"(?<![\w.])[^\W\d][\w']*", code))
    prefixes = set(re.findall(r"(?<![\w.])([a-z_]+)\.(?=\w)", code))
    lines = [needed(line, words, prefixes, code) for line in head.split("\n") if line]
    return "\n".join(line for line in lines if line) + "\n\n" + text_


def lines_of(parts, indent="    "):
    if not parts:
        return " []"
    return "\n" + indent + ("\n" + indent + "∷ ").join(parts) + "\n" + indent + "∷ []"


def law(name, program, script, bound, trace, title):
    """The definitions of one row and its law."""
    fields, policies, environment, main = program.data()
    out = []
    if title:
        out.append(f"-- {title}")
    out.append(f"abbrev pub {name}_program : Image")
    out.append(f"{name}_program =\n    record {{")
    for field, parts in fields:
        out.append(f"      {field} ={lines_of(parts, '          ')};")
    out.append(f"      policies = {policies};\n      environment = {environment};\n      main = {main};\n    }}\n")
    out.append(f"abbrev pub {name}_script : List (ℤ × Item)")
    out.append(f"{name}_script ={lines_of([script_item(x) for x in script])}\n")
    out.append(f"-- the lines of its run up to tick {bound}")
    out.append(f"unfoldable pub {name}_lines : List (ℕ × Event)")
    out.append(f"{name}_lines = run_of {name}_program {name}_script {bound}\n")
    out.append(f"unfoldable pub {name}_trace : List (ℕ × Event)")
    out.append(f"{name}_trace ={lines_of([trace_item(x) for x in trace])}\n")
    out.append(f"pub {name}_runs : {name}_lines ≡ {name}_trace")
    out.append(f"unfolding {name}_lines {name}_trace digits computing")
    out.append(f"{name}_runs = refl")
    return "\n".join(out) + "\n"


def read(folder, name, missing=None):
    path = os.path.join(folder, name)
    if not os.path.exists(path):
        return missing
    with open(path, "rb") as f:
        return f.read()


def script_of(bytes_):
    """The items of a script, of none where there is no script."""
    items_, fault = interpreter.items_of(bytes_ or b"")
    if fault is not None:
        raise ValueError(interpreter.script_note(fault).decode().strip())
    return items_


# the bound up to which the worlds of a row's run are tested too
TESTED = 250


def worlds_law(name, bound):
    """The laws that every world of the run is well formed, and that each handler is released at its tick."""
    return f"""
-- whether every world of its run is well formed
unfoldable pub {name}_worlds : Bool
{name}_worlds = run_is_well_formed {name}_program {name}_script {bound}

pub {name}_keeps : {name}_worlds ≡ true
unfolding {name}_worlds computing
{name}_keeps = refl

-- whether each handler is released at its tick
unfoldable pub {name}_handlers : Bool
{name}_handlers = releases_ok {name}_program {name}_script {bound}

pub {name}_releases : {name}_handlers ≡ true
unfolding {name}_handlers computing
{name}_releases = refl
"""


def row_law(folder, row):
    """The text of a row's module."""
    trace = read(folder, "trace").decode("latin-1").split("\n")[:-1]
    ticks = read(folder, "ticks")
    last = int(trace[-1].split(" ")[0])
    bound = int(ticks) if ticks is not None else last + 1
    program = Program(read(folder, "source"))
    items_ = script_of(read(folder, "script"))
    title = f"Row {row}: its run stops before tick {bound}, so every greater bound gives the same trace." if ticks is None \
        else f"Row {row}: its run up to tick {bound}."
    head = HEAD
    text_ = law(name_of(row), program, items_, bound, trace, title)
    if bound <= TESTED:
        head += "use Rattle.std.specs.Prelude.{Bool}\nuse Rattle.profile_machine.specs.WellFormed.{run_is_well_formed}\nuse Rattle.profile_machine.specs.Releases.{releases_ok}\n"
        text_ += worlds_law(name_of(row), bound)
    return with_imports(head, text_), bound


def name_of(row):
    return "row_" + row.replace(".", "_")


def module_of(row):
    return "Row" + row.replace(".", "_").capitalize()


# the files of `src/rows`, with what they say of their rows, and the areas of each; a row's area is the first part of its name
FILES = {
    "numbered": ("Worked rows that are known by a number.", ()),
    "sequential": ("Worked rows of what a task does by itself: values, statements, subprograms, exceptions and controlled objects.",
                   ("adjust", "bodies", "controlled", "exceptions", "loops", "room", "scopes", "values")),
    "real_time": ("Worked rows of priorities and policies, clocks, timers, budgets and interrupts.",
                  ("appointments", "budgets", "clocks", "edf", "events", "interrupts", "policies", "priorities", "timers", "wide")),
    "tasking": ("Worked rows of tasks, protected objects, entry calls and select statements.", ()),
}


def file_of(row):
    """The file of `src/rows` in which a row stands."""
    area = row.partition(".")[0]
    if area[0].isdigit():
        return "numbered"
    return next((name for name, (_, areas) in FILES.items() if area in areas), "tasking")


def row_function(row, bound):
    """The import of a row's function, and the function."""
    name, tested = name_of(row), bound <= TESTED
    words_ = f"{name}_lines, {name}_trace" + (f", {name}_worlds, {name}_handlers" if tested else "")
    module = f"crate::specs::Rows::{module_of(row)}"
    using = f"{module}::{name}_runs" + (f", {module}::{name}_keeps, {module}::{name}_releases" if tested else "")
    runs = f"{{ {name}_lines ≡ {name}_trace }}"
    clauses = f"    ensures {runs}\n"
    if tested:
        clauses = f"    ensures runs {runs}\n    ensures keeps {{ IsTrue {name}_worlds }}\n" \
                  f"    ensures releases {{ IsTrue {name}_handlers }}\n"
    return f"ghost use Rattle.machine_rows.specs.Rows.{module_of(row)}.{{{words_}}};", \
        f"/// Row {row}, up to tick {bound}.\n#[tactic(auto, using({using}))]\npub fn {name}()\n{clauses}{{}}\n"


def write(crate, path, text_):
    target = os.path.join(crate, *path.split("/"))
    os.makedirs(os.path.dirname(target), exist_ok=True)
    with open(target, "w", encoding="utf-8") as f:
        f.write(text_)


def names_in(rows):
    return sorted(n for n in os.listdir(rows) if os.path.isdir(os.path.join(rows, n)))


def data_of(text_, row):
    """The definitions of a module that are data: the program, the script and the trace."""
    return [re.findall(rf"^{name_of(row)}_{part} =.*?(?=\n\S|\Z)", text_, re.M | re.S) for part in ("program", "script", "trace")]


def compare_rows(rows, crate):
    """Whether the modules of the rows are those that stand in the crate; the answer is how many are not."""
    same, whole, other = 0, 0, 0
    for row in names_in(rows):
        path = os.path.join(crate, "specs", "Rows", f"{module_of(row)}.antt")
        made, stored = row_law(os.path.join(rows, row), row)[0], interpreter.content(path, b"").decode()
        if data_of(made, row) == data_of(stored, row) and all(data_of(made, row)):
            same += 1
            whole += made == stored
            if made != stored:
                print(f"{row}: the same data, in a file that differs elsewhere", flush=True)
        else:
            other += 1
            print(f"{row}: other data", flush=True)
    print(f"{same} the same, {whole} of them whole files, {other} not")
    return other


def make_rows(rows, crate):
    names = names_in(rows)
    functions = {name: [] for name in FILES}
    for row in names:
        text_, bound = row_law(os.path.join(rows, row), row)
        write(crate, f"specs/Rows/{module_of(row)}.antt", text_)
        functions[file_of(row)].append(row_function(row, bound))
    listed = "-- Worked rows: programs with the traces of their runs, which the machine's runs are.\n"
    write(crate, "specs/Rows.antt", listed + "".join(f"pub mod {module_of(row)}\n" for row in names))
    title = "//! The worked rows by their subjects.\n"
    write(crate, "src/rows.rt", title + "".join(f"pub mod {name};\n" for name in sorted(FILES)))
    for name, (about, _) in FILES.items():
        imports = [line for line, _ in functions[name]]
        write(crate, f"src/rows/{name}.rt",
              f"//! {about}\nghost use Rattle.std.specs.Prelude.{{◌≡◌, IsTrue}};\n" + "\n".join(imports) + "\n\n"
              + "\n".join(text_ for _, text_ in functions[name]))


def main():
    words = argparse.ArgumentParser(description=__doc__, formatter_class=argparse.RawDescriptionHelpFormatter)
    words.add_argument("--rows")
    words.add_argument("--crate")
    words.add_argument("--compare", action="store_true")
    words.add_argument("--name")
    words.add_argument("--source")
    words.add_argument("--script")
    words.add_argument("--ticks", type=int, default=1000000)
    words.add_argument("--trace")
    words.add_argument("--title")
    words.add_argument("--out")
    a = words.parse_args()
    if a.rows and a.compare:
        return int(compare_rows(a.rows, a.crate) > 0)
    if a.rows:
        make_rows(a.rows, a.crate)
        return 0
    with open(a.source, "rb") as f:
        program = Program(f.read())
    script = script_of(interpreter.content(a.script) if a.script else None)
    with open(a.trace) as f:
        trace = f.read().split("\n")[:-1]
    result = with_imports(HEAD, law(a.name, program, script, a.ticks, trace, a.title))
    with open(a.out, "w") as f:
        f.write(result)
    return 0


if __name__ == "__main__":
    sys.exit(interpreter.in_large_stack(main))
