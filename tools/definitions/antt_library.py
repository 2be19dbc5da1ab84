"""The values of definitions, and the words of the standard library on them.

Constructors are `Con`, records and pairs `Rec`, functions that still want arguments `Fn`; lists are tuples, or the `Tail` of a
long one, or a long one that is `Grown`; texts are their bytes, numbers and truth values Python's own.
"""


# ---------------------------------------------------------------- values

class Con:
    """A constructor with its arguments."""
    __slots__ = ("n", "a")
    def __init__(self, n, a=()): self.n = n; self.a = a
    def __repr__(self): return self.n if not self.a else "(" + self.n + " " + " ".join(map(repr, self.a)) + ")"


class Rec:
    """A record by its fields; those of a pair are 0 and 1."""
    __slots__ = ("d",)
    def __init__(self, d): self.d = d
    def up(self, d):
        x = dict(self.d); x.update(d); return Rec(x)
    def __repr__(self): return "{" + "; ".join(f"{k}={v!r}" for k, v in self.d.items()) + "}"


class ExpressionNode(Rec):
    """An expression of a tree, which `fold` and `out` of its type go through."""
    __slots__ = ()


class SequenceNode(Rec):
    """A sequence of a tree."""
    __slots__ = ()


class Fn:
    """A function of k arguments with those that it has already."""
    __slots__ = ("k", "f", "a")
    def __init__(self, k, f, a=()): self.k = k; self.f = f; self.a = a


class Tail:
    """The end of a long list, without a copy of it. What is made of it with others is a tuple again."""
    __slots__ = ("l", "i")
    def __init__(self, l, i): self.l = l; self.i = i
    def __len__(self): return len(self.l) - self.i
    def __iter__(self): return iter(self.l[self.i:])
    def __getitem__(self, n):
        if n.__class__ is int: return self.l[self.i + n if n >= 0 else n]
        start, stop, _ = n.indices(len(self))
        return self.l[self.i + start:self.i + stop]
    def __add__(self, other): return (*self, *other)
    def __radd__(self, other): return (*other, *self)
    def __eq__(self, other): return self.l[self.i:] == (other.l[other.i:] if other.__class__ is Tail else other)
    def __hash__(self): return hash(self.l[self.i:])
    def __repr__(self): return repr(self.l[self.i:])


class Grown:
    """A long list to whose end items are put one by one, without a copy of it for each: the first n items of a list of Python's
    own, to which items are only ever added. What is made of it with others is a tuple again."""
    __slots__ = ("l", "n", "copy")
    def __init__(self, l): self.l = l; self.n = len(l); self.copy = None
    def whole(self):
        if self.copy is None: self.copy = tuple(self.l[:self.n])
        return self.copy
    def __len__(self): return self.n
    def __iter__(self): return iter(self.whole())
    def __getitem__(self, n): return self.l[n] if n.__class__ is int and 0 <= n < self.n else self.whole()[n]
    def __add__(self, other): return (*self, *other)
    def __radd__(self, other): return (*other, *self)
    def __eq__(self, other): return self.whole() == (other.whole() if other.__class__ is Grown else other)
    def __hash__(self): return hash(self.whole())
    def __repr__(self): return repr(self.whole())


def inserted(l, n, x):
    """A list with x at place n."""
    if n < max(len(l), 100): return l[:n] + (x,) + l[n:]
    # (another list may have been made longer than this one before)
    if l.__class__ is not Grown or l.n != len(l.l): return Grown([*l, x])
    l.l.append(x)
    return Grown(l.l)


def tail(l, n):
    """A list without its first n items."""
    if l.__class__ is Grown: l = l.whole()
    if len(l) - n < 100: return l[n:]
    return Tail(l, n) if l.__class__ is tuple else Tail(l.l, l.i + n)


def ap(f, *xs):
    """A function applied."""
    while xs:
        if f.__class__ is Fn:
            args = f.a + xs
            k = f.k
            if len(args) == k: return f.f(*args)
            if len(args) < k: return Fn(k, f.f, args)
            xs = args[k:]
            f = f.f(*args[:k])
        elif f.__class__ is Con:
            return Con(f.n, f.a + xs)
        else:
            raise TypeError(f"applied {f!r:.200} to {xs!r:.200}")
    return f


# ---------------------------------------------------------------- the standard library

def SOME(x): return Con("Some", (x,))
NONE = Con("None")


def sub(a, b): return a - b if a > b else 0
def quotient(a, b): return a // b if b else 0


def _find(t, l):
    for x in l:
        if ap(t, x): return SOME(x)
    return NONE


def _position(t, l):
    for i, x in enumerate(l):
        if ap(t, x): return SOME(i)
    return NONE


def _div(a, b):
    if b == 0: return 0
    q = abs(a) // abs(b)
    return q if (a < 0) == (b < 0) else -q


def _flat(f, l):
    out = []
    for x in l: out += ap(f, x)
    return tuple(out)


def _folded(f, a, l):
    for x in l: a = ap(f, a, x)
    return a


def _split(t, l):
    out, last = [], []
    for x in l:
        if ap(t, x):
            out.append(tuple(last)); last = []
        else: last.append(x)
    return (*out, tuple(last))


def _number(radix, l):
    """The number that decimal digits write."""
    if radix != 10: raise NotImplementedError(f"digits to the base {radix}")
    return int(bytes(l)) if l else 0


def _ordering(a, b): return Con("Less" if a < b else "Equal" if a == b else "Greater")


def _with_entry(compare, l, k, v):
    """Entries by their keys, with one more or with another value."""
    for i, e in enumerate(l):
        how = ap(compare, k, e.d["0"]).n
        if how == "Less": return l[:i] + (Rec({"0": k, "1": v}),) + l[i:]
        if how == "Equal": return l[:i] + (Rec({"0": e.d["0"], "1": v}),) + l[i+1:]
    return l + (Rec({"0": k, "1": v}),)


def _lookup(t, l):
    for e in l:
        if ap(t, e.d["0"]): return SOME(e.d["1"])
    return NONE


def _letter(b): return 65 <= b <= 90 or 97 <= b <= 122
def _digit(b): return 48 <= b <= 57


def _inside(kind, f, x):
    """The nodes of this kind in x folded."""
    c = x.__class__
    if c is kind: return ap(f, Rec({k: _inside(kind, f, v) for k, v in x.d.items()}))
    if c is tuple or c is Tail or c is Grown: return tuple(_inside(kind, f, y) for y in x)
    if c is Con: return Con(x.n, tuple(_inside(kind, f, y) for y in x.a)) if x.a else x
    if c is Rec or c is SequenceNode: return c({k: _inside(kind, f, v) for k, v in x.d.items()})
    return x


B = {
 "pos": (1, lambda n: n), "negsuc": (1, lambda n: -n-1), "suc": (1, lambda n: n+1), "zero": 0, "tt": 0,
 "true": True, "false": False, "not": (1, lambda b: not b), "length": (1, len),
 "eqb": (2, lambda a, b: a == b), "ltb": (2, lambda a, b: a < b), "leb": (2, lambda a, b: a <= b),
 "nat_eq": (2, lambda a, b: a == b), "nat_lt": (2, lambda a, b: a < b), "nat_le": (2, lambda a, b: a <= b),
 "int_lt": (2, lambda a, b: a < b), "int_le": (2, lambda a, b: a <= b),
 "int_div": (2, _div), "int_rem": (2, lambda a, b: a - b*_div(a, b)),
 "neg_ℤ": (1, lambda a: -a), "nat_abs": (1, abs), "max": (2, max), "min": (2, min),
 "take": (2, lambda n, l: l[:n]), "drop": (2, lambda n, l: tail(l, n)), "reverse": (1, lambda l: l[::-1]),
 "insert": (3, inserted),
 "replicate": (2, lambda n, x: (x,)*n), "map": (2, lambda f, l: tuple(ap(f, x) for x in l)),
 "filter": (2, lambda f, l: tuple(x for x in l if ap(f, x))), "find": (2, _find), "position": (2, _position),
 "slice_index_or": (3, lambda l, n, d: l[n] if n < len(l) else d), "slice_index": (2, lambda l, n: l[n] if n < len(l) else 0),
 "slice_get": (2, lambda l, n: SOME(l[n]) if n < len(l) else NONE),
 "slice_set": (3, lambda l, n, v: l[:n] + (v,) + l[n+1:] if n < len(l) else l),
 "slice_split": (2, _split), "strip_carriage_return": (1, lambda l: l[:-1] if l[-1:] == (13,) else l),
 "fold": (3, _folded), "flat_map": (2, _flat), "sum_by": (2, lambda f, l: sum(ap(f, x) for x in l)),
 "list_any": (2, lambda f, l: any(ap(f, x) for x in l)), "list_all": (2, lambda f, l: all(ap(f, x) for x in l)),
 "is_some": (1, lambda o: o.n == "Some"), "is_none": (1, lambda o: o.n == "None"),
 "unwrap_or": (2, lambda o, x: x if o.n == "None" else o.a[0]), "option_or": (2, lambda o, p: p if o.n == "None" else o),
 "option_map": (2, lambda f, o: o if o.n == "None" else SOME(ap(f, o.a[0]))),
 "option_and_then": (2, lambda f, o: o if o.n == "None" else ap(f, o.a[0])), "then_some": (2, lambda c, x: SOME(x) if c else NONE),
 "cons_option": (2, lambda o, l: o.a + l), "filter_map": (2, lambda f, l: tuple(y for x in l for y in ap(f, x).a)), "option_flatten": (1, lambda o: o if o.n == "None" else o.a[0]),
 "cond": (3, lambda c, a, b: a if c else b), "bytes_eq": (2, lambda a, b: a == b),
 "decimal": (1, lambda n: tuple(str(n).encode())), "signed_decimal": (1, lambda n: tuple(str(n).encode())),
 "is_ascii_digit": (1, _digit), "is_ascii_lowercase": (1, lambda b: 97 <= b <= 122), "is_ascii_uppercase": (1, lambda b: 65 <= b <= 90), "is_ascii_alphabetic": (1, _letter), "is_ascii_alphanumeric": (1, lambda b: _letter(b) or _digit(b)),
 "to_ascii_lowercase": (1, lambda b: b + 32 if 65 <= b <= 90 else b), "to_ascii_uppercase": (1, lambda b: b - 32 if 97 <= b <= 122 else b),
 "nat_cmp": (2, _ordering), "int_cmp": (2, _ordering), "bool_cmp": (2, _ordering), "is_eq": (1, lambda o: o.n == "Equal"),
 "on": (4, lambda f, r, x, y: ap(r, ap(f, x), ap(f, y))), "flip_args": (3, lambda r, x, y: ap(r, y, x)),
 "then_cmp": (4, lambda r, s, x, y: ap(s, x, y) if ap(r, x, y).n == "Equal" else ap(r, x, y)),
 "insert_entry": (4, _with_entry), "is_at": (2, lambda f, k: ap(f, k).n == "Equal"), "lookup": (2, _lookup),
 "remove_entry": (2, lambda t, l: next((l[:i] + l[i+1:] for i, e in enumerate(l) if ap(t, e.d["0"])), l)),
 "keys_of": (1, lambda l: tuple(e.d["0"] for e in l)), "remove": (2, lambda l, n: l[:n] + l[n+1:]),
 "digits_value": (2, _number), "count_by": (2, lambda t, l: sum(1 for x in l if ap(t, x))),
 "div_ceil": (2, lambda a, b: -(-a // b) if b else 0), "option_to_list": (1, lambda o: o.a),
 "codes": (1, lambda s: s),
}
# those of the types of trees, whose first argument is a type
TREES = {
 "fold_Expression": (2, lambda f, x: _inside(ExpressionNode, f, x)), "fold_Sequence": (2, lambda f, x: _inside(SequenceNode, f, x)),
 "roll_Expression": (1, lambda x: ExpressionNode(x.d)), "roll_Sequence": (1, lambda x: SequenceNode(x.d)),
 "out_Expression": (1, lambda e: e), "out_Sequence": (1, lambda e: e),
}
B.update(TREES)
