"""Evaluates definitions of the crates as they stand in their .antt files.

A definition becomes a Python function when it is first called, or is taken from what `kept` has; `antt_library` says what values
are. A name is what the `use` lines of its file say; a constant of the code is read from the crate's source. Types are looked at
only for how many arguments a definition takes. A form or a name that is not known is an error that names it. Nothing is proved
here.
"""
import functools
import os
import re
import sys

sys.path.insert(0, os.path.dirname(os.path.abspath(__file__)))
from antt_library import B, NONE, TREES, Con, ExpressionNode, Fn, Rec, SequenceNode, ap, quotient, sub, tail    # noqa: E402, F401
from kept import Functions, python_name    # noqa: E402

sys.setrecursionlimit(10**9)

# the project whose crates are read
ROOT = os.path.dirname(os.path.dirname(os.path.dirname(os.path.abspath(__file__))))


BCONS = {"Some", "None", "Ok", "Err"}
LIBRARY = {"std", "core"}


# ---------------------------------------------------------------- texts

TOK = re.compile(r'''\s+|--[^\n]*|(?P<str>"(?:\\.|[^"\\])*")|(?P<num>\d+)|(?P<op>\+ℤ|-ℤ|\*ℤ|>>=|>>|\+\+|&&|\|\||▷|▶|∷|↦|≡|→|←|×|==|[<≤≢⊎↔^/%]|\+|-|\*|=|;|:|,|\(|\)|\[|\]|\{|\}|\||λ|\.)|(?P<quoted>«[^»]*»)|(?P<id>[^\W\d][\w'ℕℤ₀-₉]*(?:\.[\w'₀-₉]+)*)|(?P<mix>◌\S+◌)|(?P<sign>⊥|⊤)''')
FIELD = re.compile(r"\.[\w']+")


def tokens(s):
    out = []; i = 0
    while i < len(s):
        m = TOK.match(s, i)
        if not m: raise SyntaxError(f"token {s[i:i+40]!r}")
        k = m.lastgroup
        if k:
            t = m.group()
            if k == "op" and t == "." and i > 0 and out and not s[i-1].isspace() and i+1 < len(s) and s[i+1].isalnum():
                m2 = FIELD.match(s, i)
                out.append(("field", m2.group()[1:])); i = m2.end(); continue
            out.append(("id", t[1:-1]) if k == "quoted" else (k, t))
        i = m.end()
    return out


def chunks_of(text):
    """The clauses and other items of a text, each with the lines that go on with it."""
    chunks = []
    for ln in text.split("\n"):
        if not ln.strip() or ln.lstrip().startswith("--"): continue
        if (ln[0].isspace() or ln[0] in ")]}") and chunks: chunks[-1] += "\n" + ln
        else: chunks.append(ln)
    return chunks


def in_one_line(chunk):
    """A clause whose right side is a `do` block, with semicolons between its lines."""
    head, mark, body = chunk.partition("= do\n")
    if not mark: return chunk
    lines, least = [], None
    for ln in body.split("\n"):
        depth = len(ln) - len(ln.lstrip())
        if least is None: least = depth
        if depth == least and ln[depth] not in ")]}": lines.append(ln.strip())
        else: lines[-1] += " " + ln.strip()
    return head + "= do " + " ; ".join(lines)


def outer(toks):
    """The tokens that stand in no brackets, each with its place."""
    depth = 0
    for i, t in enumerate(toks):
        if t[0] == "op" and t[1] in "([{": depth += 1
        elif t[0] == "op" and t[1] in ")]}": depth -= 1
        elif depth == 0: yield i, t


# ---------------------------------------------------------------- modules

class Module:
    """The names of a file of definitions: what each means there, and the definitions that it has."""
    def __init__(self, name, is_file):
        self.name, self.is_file = name, is_file
        self.clear()
    def clear(self): self.names, self.alias, self.defs, self.types, self.signatures = {}, {}, {}, {}, {}
    def meaning(self, n):
        """What a name means: a definition, a constructor, a constant, or a name of the library."""
        r = self.names.get(n) or ALWAYS.get(n)
        if r is not None and r[0] == "use":
            r = load(r[1]).meaning(r[2])
            self.names[n] = r
        return r


# what is known without a `use`
ALWAYS = {"tt": ("builtin", "tt")}
MODULES = {}
GLOBALS = {"Con": Con, "Rec": Rec, "Fn": Fn, "ap": ap, "sub": sub, "quotient": quotient, "tail": tail, "NONE": NONE}


def path_of(name):
    """The file of a module, which is named as CRATE.specs.NAME."""
    crate, rest = name.split(".specs.", 1)
    return os.path.join(ROOT, "crates", crate, "specs", *rest.split(".")) + ".antt"


def load(name, text=None):
    """The module of this name; its text is that of its file where none is given."""
    if name in MODULES: return MODULES[name]
    m = Module(name, text is None)
    if text is None:
        with open(path_of(name), encoding="utf-8") as f: text = f.read()
    MODULES[name] = m
    read(m, text)
    return m


FUNCTIONS = Functions(ROOT, GLOBALS, load)


def forget(name):
    """Drops a module whose definitions nothing calls any more."""
    for d in MODULES.pop(name).defs.values(): GLOBALS.pop(d.py, None)


def reload(name, text):
    """Gives a loaded module another text. What others compiled calls its functions by their names, so that it sees the
    new ones; only what was computed once is forgotten."""
    if FUNCTIONS.kept: raise ValueError(f"another text of {name}, where what its file says is kept")
    m = load(name)
    arities = {n: d.k for n, d in m.defs.items()}
    m.clear()
    read(m, text)
    if {n: d.k for n, d in m.defs.items()} != arities: raise SyntaxError(f"other names in {name}")
    for other in MODULES.values():
        for d in other.defs.values():
            if d.k == 0: d.anew()


def definition(module, name):
    """A definition, as a function of all its arguments at once, or its value where it has none."""
    py, arities = python_name(module, name), FUNCTIONS.arities
    k = load(module).defs[name].k if module in MODULES or py not in arities and not FUNCTIONS.restored(py) else arities[py]
    if k == 0: return GLOBALS[py]()
    return lambda *arguments: ap(Fn(k, GLOBALS[py]), *arguments)


# the operators that crates define
OWN = {"▷", "▶", ">>=", ">>"}


def read(m, text):
    """Reads the text of a module: its uses, its constructors, and its definitions by their clauses."""
    text = re.sub(r"\b(fold|out|roll)-(\w+)", r"\1_\2", text)
    groups = {}
    read_chunks(m, chunks_of(text), (), groups)
    for name, (section, clauses) in groups.items():
        d = Def(m, name, section, clauses)
        if name[0].isupper(): m.types[name] = d
        else: m.defs[name] = d
        m.names[name] = ("type" if name[0].isupper() else "def", m, name)


HEAD = re.compile(r"(?:abbrev|unfoldable|pub|\s)*\s*(\S+) :\s(.*)", re.S)


def read_chunks(m, chunks, section, groups):
    """A section is the numbers and the parameters of the modules without a name around a chunk."""
    for c in chunks:
        w = c.split(None, 3)
        if w[0] == "use": do_use(m, c)
        elif w[0] in ("infixl", "infixr", "infix", "unfolding"): pass
        elif w[0] == "module":
            head, _, body = c.partition("\n")
            names = tuple(n for g in re.findall(r"\(([^:()]*):", head) for n in g.split())
            inner = "\n".join(ln[2:] for ln in body.split("\n"))
            read_chunks(m, chunks_of(inner), section + ((id(c), len(groups), names),), groups)
        elif w[:2] == ["pub", "data"] or w[0] == "data":
            for ln in c.split("\n")[1:]:
                ln = ln.split("--")[0].strip()
                if ln: m.names[ln.split(":")[0].strip()] = ("con", ln.split(":")[0].strip())
        elif w[:2] in (["pub", "record"], ["pub", "mod"]) or w[0] in ("record", "mod"):
            if w[1] == "record": m.names.setdefault(w[2], ("type", m, w[2]))
        elif w[0] in ("abbrev", "unfoldable", "pub"):
            g = HEAD.match(c)
            if g: m.signatures[g[1]] = g[2]
        else:
            name = w[0]
            if name.startswith("(") or len(w) > 1 and w[1] in OWN: name = f"◌{operator_of(tokens(c))}◌"
            groups.setdefault(name, (section, []))[1].append(c)


def operator_of(toks):
    """The operator that a clause defines: as `x ▷ y = ..` or `(x ▷ y) z = ..`."""
    eq = next(i for i, t in outer(toks) if t == ("op", "="))
    found = [t[1] for _, t in outer(toks[:eq]) if t[0] == "op" and t[1] in OWN] or [t[1] for t in toks[:eq] if t[0] == "op" and t[1] in OWN]
    return found[0]


def do_use(m, c):
    """A line `use PATH.{NAME, NAME as OTHER}` or `use PATH as OTHER`: of a file of definitions, of the variants of a type,
    of constants, of declared types, or of the standard library."""
    c = " ".join(c.split())[4:]
    path, names, alias = re.match(r"^([\w.'-]+?)(?:\.\{(.*)\})?(?: as ([\w']+))?$", c).groups()
    path = path.replace("Rattle.", "", 1)
    crate = path.split(".specs.", 1)[0]
    names = [(x.split(" as ")[0].strip(), x.split(" as ")[-1].strip()) for x in (names or "").split(",") if x.strip()]
    names = [(n.strip("«»"), o.strip("«»")) for n, o in names]
    if path.endswith(".TheVariants"):
        if alias: m.alias[alias] = ("variants",)
        for n, other in names: m.names[other] = ("con", n)
    elif path.endswith(".TheConstants"):
        for n, other in names: m.names[other] = ("const", path, n)
    elif crate in LIBRARY:
        for n, other in names:
            if n in BCONS: m.names[other] = ("con", n)
            elif n in B: m.names[other] = ("builtin", n)
            elif n[0].isupper(): m.names[other] = ("type", None, n)
    elif ".specs." not in path or ".specs.declared." in path or ".specs.contracts." in path:
        for n, other in names:
            if n in TREES: m.names[other] = ("builtin", n)
            else: m.names[other] = ("type", None, n)
    else:
        if alias: m.alias[alias] = ("module", path)
        for n, other in names: m.names[other] = ("use", path, n)


@functools.lru_cache(None)
def constant(root, path, name):
    """A constant of the code: of the source of its crate."""
    crate, rest = path.split(".specs.declared.")
    parts = rest.split(".")[:-1]
    file = os.path.join(root, "crates", crate, "src", *parts) + ".rt"
    if not os.path.exists(file): file = os.path.join(root, "crates", crate, "src", *parts, "mod.rt")
    with open(file, encoding="utf-8") as f: text = f.read()
    found = re.search(CONST.format(name), text, re.S)
    if not found: raise NameError(f"{name} in {file}")
    value = " ".join(found[2].split())
    value = re.sub(r" as [ui](?:8|16|32|64|128|size)$", "", value)  # (each such type holds the value)
    if re.fullmatch(r"[A-Z][A-Z0-9_]*", value): return brought_in(root, text, value)
    named = re.fullmatch(r"(\w+)::([A-Z][A-Z0-9_]*)", value)
    if named and os.path.isdir(os.path.join(root, "crates", named[1])): return constant_of_crate(root, named[1], named[2])
    return constant_value(value)


CONST = r"\bconst {}\s*:\s*((?:[^;=\[]|\[[^\]]*\])*)=\s*(.*?);\n"


def brought_in(root, text, name):
    """A constant that another crate has, and that this text brings in by a use line."""
    crate = re.search(rf"(?m)^use (\w+)::(?:{name}|\{{[^}}]*\b{name}\b[^}}]*\}});", text)[1]
    return constant_of_crate(root, crate, name)


def constant_of_crate(root, crate, name):
    folder = os.path.join(root, "crates", crate, "src")
    for file in sorted(os.listdir(folder)):
        with open(os.path.join(folder, file), encoding="utf-8") as f:
            if re.search(CONST.format(name), f.read(), re.S):
                return constant(root, f"{crate}.specs.declared.{file[:-3]}.TheConstants", name)
    raise NameError(f"{name} in {folder}")


def end_of_type(sign, bits, end):
    """The least or the greatest number of a type of Rust."""
    if sign == "u": return 0 if end == "MIN" else 2**bits - 1
    return -(2 ** (bits - 1)) if end == "MIN" else 2 ** (bits - 1) - 1


def constant_value(e):
    if e.startswith("&"): e = e[1:].strip()
    if e.startswith("["): return tuple(constant_value(x.strip()) for x in e[1:-1].split(",") if x.strip())
    end = re.fullmatch(r"([ui])(\d+)::(MIN|MAX)", e)
    if end: return end_of_type(end[1], int(end[2]), end[3])
    if re.fullmatch(r"-?[\d_]+(?:[ui](?:8|16|32|64|128|size))?", e): return int(re.match(r"-?[\d_]+", e)[0])
    if re.fullmatch(r"\w+::\w+", e): return Con(e.split("::")[1])
    raise SyntaxError(f"constant {e[:80]}")


# ---------------------------------------------------------------- arities

def arrows(m, toks):
    """How many arguments a type takes, behind those that are found by themselves."""
    parts, depth = [[]], 0
    for t in toks:
        if t[0] == "op" and t[1] in "([{": depth += 1
        elif t[0] == "op" and t[1] in ")]}": depth -= 1
        if depth == 0 and t == ("op", "→"): parts.append([])
        else: parts[-1].append(t)
    return sum(map(binders, parts[:-1])) + named_arrows(m, parts[-1])


def binders(part):
    """How many arguments stand before an arrow: `A`, `(x y : A)`, or `{X : A}`, which counts nothing."""
    groups, depth, start = [], 0, 0
    for i, t in enumerate(part):
        if t[0] == "op" and t[1] in "([{":
            if depth == 0: start = i
            depth += 1
        elif t[0] == "op" and t[1] in ")]}":
            depth -= 1
            if depth == 0: groups.append(part[start:i+1])
    if sum(map(len, groups)) != len(part) or not groups: return 1
    count = 0
    for g in groups:
        colons = [i for i, t in outer(g[1:-1]) if t == ("op", ":")]
        if g[0][1] == "{": continue
        if not colons: return 1
        count += colons[0]
    return count


def named_arrows(m, toks):
    """The arguments that the name of a type stands for."""
    if not toks or toks[0][0] != "id" or any(t[0] == "op" for _, t in outer(toks)): return 0
    r = m.meaning(toks[0][1])
    if r is None or r[0] != "type" or r[1] is None: return 0
    d = r[1].types.get(r[2])
    return 0 if d is None or len(d.chunks) != 1 else arrows(d.m, d.clauses[0][1])


# ---------------------------------------------------------------- definitions

PREC = {">>=": (10, "l"), ">>": (10, "l"), "▷": (20, "r"), "▶": (20, "r"), "||": (30, "r"), "&&": (36, "r"), "==": (40, "l"), "∷": (67, "r"), "++": (65, "r"), "+": (70, "l"), "-": (70, "l"), "+ℤ": (70, "l"), "-ℤ": (70, "l"), "*": (80, "l"), "/": (80, "l"), "%": (80, "l"), "*ℤ": (80, "l"), "^": (90, "r")}
class MatchError(Exception): pass
GLOBALS["MatchError"] = MatchError


class Code(str):
    """A piece of Python; `partial` has the function, its number of arguments and those that are there, where some lack."""
    partial = None


def partial(py, k, args):
    c = Code(f"Fn({k}, {py}, ({''.join(a + ', ' for a in args)}))")
    c.partial = py, k, args
    return c


class Def:
    """A definition by its clauses. It is compiled when it is first called, and one without arguments is computed once."""
    def __init__(self, m, name, section, chunks):
        self.m, self.name, self.section, self.chunks = m, name, section, chunks
        self.py = python_name(m.name, name)
        FUNCTIONS.read[self.py] = m.name
        self.parameters = tuple(n for s in section for n in s[2])
        self.anew()
    @functools.cached_property
    def clauses(self):
        """Of each clause the tokens of its patterns, one list or two around an operator, and those of its right side."""
        out = []
        for c in self.chunks:
            toks = tokens(in_one_line(c))
            eq = next((i for i, t in outer(toks) if t == ("op", "=")), None)
            if eq is None: raise SyntaxError(f"no = in {self.m.name}: {c[:200]}")
            out.append((toks[:eq], toks[eq+1:]))
        return out
    @functools.cached_property
    def pats(self): return [self.patterns_of(l) for l, _ in self.clauses]
    def patterns_of(self, toks):
        p = [("var", n) for n in self.parameters]
        if not self.name.startswith("◌"): return p + Parser(self, toks[1:]).patterns()
        behind = []
        if not any(t == ("op", self.name[1:-1]) for _, t in outer(toks)):
            # (f ▷ g) w said
            end = next(i for i, t in enumerate(toks) if t == ("op", ")"))
            toks, behind = toks[1:end], toks[end+1:]
        at = next(i for i, t in outer(toks) if t == ("op", self.name[1:-1]))
        return p + [Parser(self, toks[:at]).pattern_alone(), Parser(self, toks[at+1:]).pattern_alone()] + Parser(self, behind).patterns()
    @functools.cached_property
    def k(self):
        """The arguments of the clauses, and those that the type tells beyond them."""
        least = len(self.pats[0])
        signature = self.m.signatures.get(self.name)
        if signature is None: return least
        return max(least, len(self.parameters) + arrows(self.m, tokens(signature)))
    def anew(self):
        self.compiled = False
        GLOBALS[self.py] = self.stub
    def stub(self, *args):
        if not self.compiled: self.compile()
        return GLOBALS[self.py](*args)
    def compile(self):
        self.compiled = True
        if self.m.is_file and FUNCTIONS.restored(self.py): return
        params = [f"a{i}" for i in range(self.k)]
        lines = [f"def {self.py}({', '.join(params)}):"]
        for pats, (_, rhs) in zip(self.pats, self.clauses):
            p = Parser(self, rhs)
            conds, binds = [], []
            for q, a in zip(pats, params): match(q, a, conds, binds)
            env, ind = {}, "    "
            if conds:
                lines.append(f"    if {' and '.join(conds)}:"); ind = "        "
            used = {t[1].split(".")[0] for t in rhs if t[0] == "id"}
            for n, x in binds:
                if n not in used and n not in self.parameters: continue
                env[n] = x if x.isidentifier() else p.fresh(n)
                if env[n] != x: lines.append(f"{ind}{env[n]} = {x}")
            p.body(env, params[len(pats):], lines, ind)
            if p.i != len(rhs): raise SyntaxError(f"rest {rhs[p.i:p.i+8]} of {self.name} in {self.m.name}")
        lines.append(f"    raise MatchError({self.py!r}, {', '.join(params)})")
        text = "\n".join(in_turns(self.py, params, lines))
        code = compile(text, self.py, "exec")
        if self.m.is_file: FUNCTIONS.keep(self.py, self.k, text, code)
        FUNCTIONS.install(self.py, self.k, code)


def in_turns(py, params, lines):
    """A function whose last step is to call itself goes round instead, unless a function inside it has its names."""
    again = f"return {py}("
    if any("lambda " in ln for ln in lines) or not any(ln.lstrip().startswith(again) and ends_there(ln.lstrip()[len(again)-1:]) for ln in lines):
        return lines
    out = [lines[0], "    while True:"]
    for ln in lines[1:]:
        body = ln.lstrip()
        ind = "    " + ln[:len(ln) - len(body)]
        if body.startswith(again) and ends_there(body[len(again)-1:]):
            out += [f"{ind}{', '.join(params)} = {body[len('return ' + py):]}", f"{ind}continue"]
        else: out.append(ind + body)
    return out


def ends_there(text):
    """Whether the bracket that opens a text closes at its end."""
    text = re.sub(r"'(?:[^'\\]|\\.)*'", "", text)
    depth = 0
    for i, c in enumerate(text):
        depth += (c in "([{") - (c in ")]}")
        if depth == 0: return i == len(text) - 1
    return False


def match(p, x, conds, binds):
    """The conditions under which x has the form of a pattern, and what its names then are."""
    k = p[0]
    if k == "var": binds.append((p[1], x))
    elif k == "any": pass
    elif k == "lit": conds.append(f"{x} == {p[1]}")
    elif k == "bool": conds.append(x if p[1] else f"not {x}")
    elif k == "nil": conds.append(f"not {x}")
    elif k == "cons":
        n, items = 0, []
        while p[0] == "cons":
            items.append(p[1]); p = p[2]; n += 1
        if p[0] == "nil": conds.append(f"len({x}) == {n}")
        else: conds.append(x if n == 1 else f"len({x}) >= {n}")
        for i, q in enumerate(items): match(q, f"{x}[{i}]", conds, binds)
        if p[0] == "var": binds.append((p[1], f"tail({x}, {n})"))
        elif p[0] not in ("nil", "any"): raise SyntaxError(f"pattern {p}")
    elif k == "suc":
        n = 0
        while p[0] == "suc": p = p[1]; n += 1
        if p[0] == "lit": conds.append(f"{x} == {p[1] + n}")
        else:
            conds.append(f"{x} >= {n}")
            if p[0] == "var": binds.append((p[1], f"({x} - {n})"))
            elif p[0] != "any": raise SyntaxError(f"pattern {p}")
    elif k == "pair":
        match(p[1], f"{x}.d['0']", conds, binds); match(p[2], f"{x}.d['1']", conds, binds)
    elif k == "pos": conds.append(f"{x} >= 0"); match(p[1], x, conds, binds)
    elif k == "negsuc": conds.append(f"{x} < 0"); match(p[1], f"(-{x}-1)", conds, binds)
    elif k == "con":
        conds.append(f"{x}.n == {p[1]!r}")
        for i, q in enumerate(p[2]): match(q, f"{x}.a[{i}]", conds, binds)


LOCAL = re.compile(r"\bv_\w+")
KEYWORDS = ("in", "let", "elim", "if", "then", "else", "do")


class Parser:
    """Reads the tokens of a pattern or of an expression of a definition, and writes the expression in Python."""
    def __init__(self, d, toks): self.d, self.m, self.t, self.i, self.shares = d, d.m, toks, 0, []
    count = 0
    def fresh(self, n):
        Parser.count += 1
        return "v_" + re.sub(r"\W|[^\x00-\x7f]", "_q", n) + f"_{Parser.count}"
    def peek(self): return self.t[self.i] if self.i < len(self.t) else ("end", "")
    def next(self): x = self.peek(); self.i += 1; return x
    def expect(self, v):
        x = self.next()
        if x[1] != v: raise SyntaxError(f"{self.m.name}: expected {v} got {x} in {' '.join(t[1] for t in self.t[max(0,self.i-12):self.i+6])}")
    def con_of(self, n):
        parts = n.split(".")
        if len(parts) == 1:
            r = self.m.meaning(n)
            return r[1] if r and r[0] == "con" else None
        if self.m.alias.get(parts[0]) == ("variants",) and len(parts) == 2: return parts[1]
        return None

    # ---- patterns

    def pattern_alone(self):
        p = self.pat()
        if self.i != len(self.t): raise SyntaxError(f"pattern {self.t} in {self.m.name}")
        return p
    def patterns(self):
        out = []
        while self.i < len(self.t): out.append(self.patom())
        return out
    def patom(self):
        k, v = self.next()
        if k == "num": return ("lit", int(v))
        if k == "op" and v == "(":
            p = self.pat()
            if self.peek() == ("op", ","):
                self.next()
                return ("pair", p, self.rest_of_pair())
            self.expect(")"); return p
        if k == "op" and v == "[":
            self.expect("]"); return ("nil",)
        if k == "id": return self.pname(v, [])
        raise SyntaxError(f"pattern {k} {v} in {self.m.name}")
    def rest_of_pair(self):
        p = self.pat()
        if self.next() == ("op", ","): return ("pair", p, self.rest_of_pair())
        return p
    def pname(self, v, args):
        if v == "_": return ("any",)
        if v in ("true", "false"): return ("bool", v == "true")
        if v == "zero": return ("lit", 0)
        if v in ("suc", "pos", "negsuc") and args: return (v, args[0])
        c = self.con_of(v)
        if c is not None: return ("con", c, args)
        if args or "." in v: raise SyntaxError(f"pattern {v} {args} in {self.m.name}")
        return ("var", v)
    def pat(self):
        if self.peek()[0] == "id" and (self.con_of(self.peek()[1]) or self.peek()[1] in ("suc", "pos", "negsuc")):
            v = self.next()[1]; args = []
            while self.peek()[0] in ("id", "num") or self.peek()[1] in ("(", "["): args.append(self.patom())
            p = self.pname(v, args)
        else: p = self.patom()
        if self.peek() == ("op", "∷"):
            self.next(); return ("cons", p, self.pat())
        return p

    # ---- the right side of a clause, as statements

    def ends(self, i):
        """Whether an expression ends here."""
        return i >= len(self.t) or self.t[i] in (("op", "|"), ("op", "]"), ("op", ")"), ("id", "then"), ("id", "else"))
    def closing(self, i):
        """The place behind the bracket that closes the one at i."""
        depth = 0
        while True:
            if self.t[i][0] == "op":
                if self.t[i][1] in "([{": depth += 1
                elif self.t[i][1] in ")]}": depth -= 1
            i += 1
            if depth == 0: return i
    def body(self, env, extra, lines, ind):
        k, v = self.peek()
        if (k, v) == ("op", "λ") and extra:
            self.next()
            env, extra = dict(env), list(extra)
            while self.peek() != ("op", ".") and extra:
                n = self.next()[1]
                if n != "_": env[n] = extra[0]
                extra.pop(0)
            if self.peek() == ("op", "."):
                self.next()
                return self.body(env, extra, lines, ind)
            self.i -= 1
            self.t = self.t[:self.i] + [("op", "λ")] + self.t[self.i+1:]
            raise SyntaxError(f"λ of {self.d.name} in {self.m.name}")
        if (k, v) == ("id", "let"):
            n, e = self.let(env)
            env = dict(env)
            env[n] = self.fresh(n)
            lines.append(f"{ind}{env[n]} = {e}")
            return self.body(env, extra, lines, ind)
        if (k, v) == ("id", "if"):
            self.next(); c = self.expr(env); self.expect("then")
            lines.append(f"{ind}if {c}:")
            self.body(env, extra, lines, ind + "    "); self.expect("else")
            return self.body(env, extra, lines, ind)
        if (k, v) == ("id", "elim") and self.elim_is_all():
            self.next()
            x = self.fresh("elim")
            lines.append(f"{ind}{x} = {self.atom(env)}"); self.expect("[")
            if self.peek()[1] == "|": self.next()
            while True:
                conds, inner = self.arm(env, x)
                lines.append(f"{ind}if {conds}:")
                for n, e in inner[1]: lines.append(f"{ind}    {n} = {e}")
                self.body(inner[0], extra, lines, ind + "    ")
                if self.peek()[1] == "|": self.next(); continue
                self.expect("]"); break
            lines.append(f"{ind}raise MatchError({self.d.py!r}, {x})")
            return
        e = self.expr(env)
        lines.append(f"{ind}return {self.apply(e, extra)}")
    def elim_is_all(self):
        i = self.i + 1
        if self.t[i] == ("op", "("):
            i = self.closing(i)
            while i < len(self.t) and self.t[i][0] == "field": i += 1
        else: i += 1
        return i < len(self.t) and self.t[i] == ("op", "[") and self.ends(self.closing(i))
    def arm(self, env, x):
        """A pattern and its arrow: the conditions, and the names behind it with what they are."""
        p = self.pat(); self.expect("↦")
        conds, binds = [], []
        match(p, x, conds, binds)
        env, named = dict(env), []
        for n, e in binds:
            env[n] = self.fresh(n)
            named.append((env[n], e))
        return " and ".join(conds) or "True", (env, named)
    def let(self, env):
        self.next(); n = self.next()[1]
        if self.peek()[1] == ":":
            while self.peek()[1] != "=": self.next()
        self.expect("=")
        e = self.expr(env); self.expect("in")
        return n, e

    # ---- expressions

    def expr(self, env): return self.ops(env, 0)
    def ops(self, env, least):
        left = self.app(env)
        while True:
            k, v = self.peek()
            if k != "op" or v not in PREC: return left
            p, a = PREC[v]
            if p < least: return left
            self.next()
            if v == "∷":
                items = [left, self.ops(env, p + 1)]
                while self.peek() == ("op", "∷"):
                    self.next(); items.append(self.ops(env, p + 1))
                last = items.pop()
                left = Code(f"({''.join(x + ', ' for x in items)})" if last == "()" else f"({', '.join(items)}, *{last})")
                continue
            right = self.ops(env, p + 1 if a == "l" else p)
            left = self.binop(v, left, right)
    def binop(self, v, l, r):
        if v in OWN: return self.call_of(self.meaning(f"◌{v}◌"), [l, r])
        if v == "||": return Code(f"({l} or {r})")
        if v == "&&": return Code(f"({l} and {r})")
        if v in "-/": return self.shared(Code(f"{'sub' if v == '-' else 'quotient'}({l}, {r})"))
        sign = {"++": "+", "^": "**", "==": "=="}.get(v, v[0])
        return self.shared(Code(f"({l} {sign} {r})"))
    def lambda_of(self, names, body):
        """A function; what its body still wants is its arguments too."""
        if body.partial:
            py, k, args = body.partial
            more = [f"e{i}_{self.fresh('')}" for i in range(k - len(args))]
            return Code(f"Fn({len(names) + len(more)}, lambda {', '.join(names + more)}: {py}({', '.join(args + more)}))")
        return Code(f"Fn({len(names)}, lambda {', '.join(names)}: {body})")
    def app(self, env):
        k, v = self.peek()
        if k == "op" and v == "λ":
            self.next(); names = []
            inner = dict(env)
            while self.peek() != ("op", "."):
                x = self.next()
                if x[0] != "id": raise SyntaxError(f"binder {x} in {self.m.name}")
                names.append(self.fresh(x[1]))
                if x[1] != "_": inner[x[1]] = names[-1]
            self.next()
            return self.lambda_of(names, self.expr(inner))
        if k == "id" and v == "let":
            n, e = self.let(env)
            inner = dict(env); inner[n] = self.fresh(n)
            return Code(f"(lambda {inner[n]}: {self.expr(inner)})({e})")
        if k == "id" and v == "do":
            self.next()
            return self.do(env)
        if k == "id" and v == "if":
            self.next()
            c = self.expr(env); self.expect("then")
            a = self.expr(env); self.expect("else")
            return Code(f"({a} if {c} else {self.expr(env)})")
        if k == "id" and v == "elim":
            self.next()
            x = self.fresh("elim")
            s = self.atom(env); self.expect("[")
            out = []
            if self.peek()[1] == "|": self.next()
            while True:
                conds, (inner, named) = self.arm(env, x)
                e = self.expr(inner)
                if named: e = f"(lambda {', '.join(n for n, _ in named)}: {e})({', '.join(y for _, y in named)})"
                out.append((conds, e))
                if self.peek()[1] == "|": self.next(); continue
                self.expect("]"); break
            chain = f"FAIL({x})"
            for c, e in reversed(out): chain = f"({e} if {c} else {chain})"
            return self.apply(Code(f"(lambda {x}: {chain})({s})"), self.args(env))
        if k == "id" and v == "record": return self.record(env)
        if k == "id": return self.named(self.next()[1], env)
        head = self.atom(env)
        return self.apply(head, self.args(env))
    def do(self, env):
        """Steps with semicolons between them, each with or without the name of what it gives."""
        if self.peek()[0] == "id" and self.t[self.i+1] == ("op", "←"):
            n = self.next()[1]; self.next()
            e = self.expr(env); self.expect(";")
            inner = dict(env); inner[n] = self.fresh(n)
            return self.binop(">>=", e, self.lambda_of([inner[n]], self.do(inner)))
        e = self.expr(env)
        if self.peek() == ("op", ";"):
            self.next()
            return self.binop(">>", e, self.do(env))
        return e
    def args(self, env):
        out = []
        while True:
            k, v = self.peek()
            if k == "id" and v not in KEYWORDS and v != "record" or k in ("num", "str", "mix") or (k == "op" and v == "("): out.append(self.atom(env))
            elif k == "op" and v == "[" and self.t[self.i+1] == ("op", "]"): out.append(self.atom(env))
            elif k == "op" and v == "{": self.i = self.closing(self.i)
            elif k == "id" and v == "record": out.append(self.record(env))
            else: return out
    def apply(self, h, args):
        args = list(args)
        if not args: return h
        if getattr(h, "partial", None):
            py, k, before = h.partial
            return self.call(py, k, before + args)
        return self.shared(Code(f"ap({h}, {', '.join(args)})"))
    def call(self, py, k, args):
        if len(args) < k: return partial(py, k, args)
        return self.apply(self.shared(Code(f"{py}({', '.join(args[:k])})")), args[k:])
    def shared(self, code):
        """What has the same two parts taken out of it twice is computed once."""
        for h in self.shares:
            if code.count(f"({h})") > 1 and not any(re.search(rf"lambda [^:]*\b{v}\b", code) for v in set(LOCAL.findall(h))):
                x = self.fresh("both")
                code = Code(f"(lambda {x}: {code.replace(f'({h})', f'({x})')})({h})")
        return code
    def meaning(self, n):
        r = self.m.meaning(n)
        if r is None: raise NameError(f"{n} in {self.m.name}")
        return r
    def stands_inside(self, section):
        """Whether what is defined in these modules has their parameters here: in them, or where the others have only implicit ones."""
        shared = 0
        while shared < min(len(section), len(self.d.section)) and section[shared] == self.d.section[shared]: shared += 1
        return shared > 0 and all(not s[2] for s in section[shared:])
    def call_of(self, r, args):
        """A name of a definition or of the library, with arguments."""
        if r[0] == "builtin":
            b = B[r[1]]
            if not isinstance(b, tuple): return Code(repr(b))
            if r[1] == "cond" and len(args) >= 3: return self.apply(Code(f"({args[1]} if {args[0]} else {args[2]})"), args[3:])
            if r[1] == "not" and len(args) == 1: return Code(f"(not {args[0]})")
            if r[1] == "length" and len(args) == 1: return Code(f"len({args[0]})")
            if r[1] == "suc" and len(args) == 1: return Code(f"({args[0]} + 1)")
            if r[1] == "pos" and len(args) == 1: return args[0]
            if r[1] in ("eqb", "ltb", "leb", "nat_eq", "nat_lt", "nat_le", "int_lt", "int_le", "bytes_eq") and len(args) == 2:
                sign = {"eq": "==", "lt": "<", "le": "<=", "by": "=="}[r[1].split("_")[-1][:2] if r[1] != "bytes_eq" else "by"]
                return Code(f"({args[0]} {sign} {args[1]})")
            return self.call(f"B_{bname(r[1])}", b[0], args)
        if r[0] == "const":
            return self.apply(Code(f"CONSTANT({r[1]!r}, {r[2]!r})"), args)
        if r[0] == "type": return Code("None")
        d = r[1].defs[r[2]]
        if r[1] is self.m and d.section and self.stands_inside(d.section):
            args = [self.inside[n] for n in d.parameters] + args
        if d.k == 0: return self.apply(Code(f"{d.py}()"), args)
        return self.call(d.py, d.k, args)
    def named(self, name, env, args=None):
        parts = name.split(".")
        self.inside = env
        if parts[0] in env:
            h = Code(env[parts[0]] + "".join(f".d[{f!r}]" for f in parts[1:]))
            return self.apply(h, self.args(env) if args is None else args)
        c = self.con_of(name)
        if c is not None:
            if args is None: args = self.args(env)
            return Code(f"Con({c!r}, ({''.join(a + ', ' for a in args)}))")
        a = self.m.alias.get(parts[0])
        if a is not None and a[0] == "module":
            r, parts = load(a[1]).meaning(parts[1]), parts[1:]
            if r is None: raise NameError(f"{name} in {self.m.name}")
        else: r = self.meaning(parts[0])
        if r[0] == "builtin" and r[1].startswith("fold_") and args is None:
            # the type that is folded into
            self.i = self.closing(self.i)
        if args is None: args = self.args(env)
        if r[0] == "builtin" and r[1] == "codes":
            if len(args) != 1: raise SyntaxError(f"codes in {self.m.name}")
            return args[0]
        self.inside = env
        if len(parts) == 1: return self.call_of(r, args)
        h = self.call_of(r, [])
        for f in parts[1:]: h = Code(f"{h}.d[{f!r}]")
        return self.apply(h, args)
    def atom(self, env):
        k, v = self.next()
        if k == "num": return Code(v)
        if k == "str": return Code(repr(tuple(eval('"' + v[1:-1] + '"').encode("latin-1"))))
        if k == "mix":
            o = v.strip("◌")
            if o in OWN: return self.call_of(self.meaning(v), [])
            if o in PREC and o != "∷": return Code(f"Fn(2, lambda x, y: {self.binop(o, 'x', 'y')})")
            if o == "∷": return Code("Fn(2, lambda x, y: (x, *y))")
        if k == "op" and v == "[":
            self.expect("]"); return Code("()")
        if k == "op" and v == "(":
            items = [self.expr(env)]
            while self.peek() == ("op", ","):
                self.next()
                if self.peek() != ("op", ")"): items.append(self.expr(env))
            self.expect(")")
            h = items[-1]
            for x in reversed(items[:-1]): h = self.shared(Code(f"Rec({{'0': {x}, '1': {h}}})"))
            if self.peek()[0] == "field" and "(" in h and h not in self.shares: self.shares.append(str(h))
            while self.peek()[0] == "field": h = Code(f"({h}).d[{self.next()[1]!r}]")
            return h
        if k == "id" and v == "record":
            self.i -= 1; return self.record(env)
        if k == "id": return self.named(v, env, [])
        raise SyntaxError(f"atom {k} {v} in {self.m.name}: {' '.join(t[1] for t in self.t)}")
    def record(self, env):
        self.expect("record")
        base = None
        if self.peek() != ("op", "{"): base = self.atom(env)
        self.expect("{")
        fs = []
        while self.peek() != ("op", "}"):
            f = self.next()[1]; self.expect("=")
            fs.append((f, self.expr(env)))
            if self.peek() != ("op", "}"): self.expect(";")
        self.expect("}")
        d = "{" + ", ".join(f"{f!r}: {e}" for f, e in fs) + "}"
        return self.shared(Code(f"Rec({d})" if base is None else f"({base}).up({d})"))


def bname(n): return n.replace("ℤ", "Z")
for n, b in B.items():
    if isinstance(b, tuple): GLOBALS["B_" + bname(n)] = b[1]
def FAIL(s): raise MatchError(s)
def CONSTANT(path, name): return constant(ROOT, path, name)
GLOBALS.update(FAIL=FAIL, CONSTANT=CONSTANT)


def in_large_stack(f):
    """Runs f in a thread with a stack for deep recursion, and gives its answer, or 70 where it fails."""
    import threading
    answer = [70]
    def run(): answer[0] = f()
    threading.stack_size(1 << 29)
    t = threading.Thread(target=run)
    t.start()
    t.join()
    return answer[0]
