"""The tree of a source as a value of `ada_tree`'s types, from the tree of a front end in Python (see ../program_data.py)."""
from antt import Con, Rec, ExpressionNode, SequenceNode

NONE = Con("None")


def some(x):
    return Con("Some", (x,))


def option(x, f):
    return NONE if x is None else some(f(x))


def text(s):
    return tuple(s.encode("latin-1"))


def place(p):
    return Rec({"line": p[0], "column": p[1]})


def identifier(i):
    return Rec({"place": place(i.place), "text": text(i.text)})


def some_of(f, xs):
    return Rec({"first": f(xs[0]), "others": tuple(f(x) for x in xs[1:])})


def all_of(f, xs):
    return tuple(f(x) for x in xs or [])


def name(n):
    return Rec({"parts": some_of(identifier, n.parts)})


LOGICAL = {"and": "And", "or": "Or", "xor": "Xor", "and then": "AndThen", "or else": "OrElse"}
RELATIONAL = {"=": "Equal", "/=": "NotEqual", "<": "Less", "<=": "LessOrEqual", ">": "Greater", ">=": "GreaterOrEqual"}
ADDING = {"+": "Plus", "-": "Minus", "&": "Concatenation"}
MULTIPLYING = {"*": "Times", "/": "Divide", "mod": "Modulus", "rem": "Remainder"}
SIGN = {"+": "Plus", "-": "Minus"}
HIGHEST = {"abs": "Absolute", "not": "Not"}


class Converter:
    def __init__(self, tree):
        self.t = tree

    def chain(self, e, table):
        """A chain of operators of one table: the first operand, and the others with their operators."""
        others = []
        while isinstance(e, self.t.Binary) and e.op in table:
            others.append((e.op_place, e.op, e.right))
            e = e.left
        return e, others[::-1]

    def expression(self, e):
        return ExpressionNode({"form": self.form(e)})

    def optional(self, e):
        return option(e, self.expression)

    def argument(self, a):
        return Rec({"formal": option(a.formal, identifier), "value": self.expression(a.expr)})

    def form(self, e):
        t, x = self.t, self.expression
        if isinstance(e, t.Num):
            return Con("Number", (place(e.place), text(e.text)))
        if isinstance(e, t.Text):
            return Con("Text", (place(e.place), text(e.value)))
        if isinstance(e, t.Null):
            return Con("Null", (place(e.place),))
        if isinstance(e, t.Paren):
            return Con("Bracketed", (place(e.place), x(e.inner)))
        if isinstance(e, t.Unary):
            if e.op in SIGN:
                return Con("Signed", (place(e.place), Con(SIGN[e.op]), x(e.operand)))
            return Con("Highest", (place(e.place), Con(HIGHEST[e.op]), x(e.operand)))
        if isinstance(e, t.Binary):
            if e.op in LOGICAL:
                first, others = self.chain(e, {e.op})
                return Con("Logical", (Con(LOGICAL[e.op]), x(first),
                                       some_of(lambda o: Rec({"place": place(o[0]), "relation": x(o[2])}), others)))
            if e.op in RELATIONAL:
                return Con("Relational", (x(e.left), place(e.op_place), Con(RELATIONAL[e.op]), x(e.right)))
            if e.op in ADDING:
                first, others = self.chain(e, ADDING)
                return Con("Adding", (x(first), some_of(lambda o: Rec(
                    {"place": place(o[0]), "operator": Con(ADDING[o[1]]), "term": x(o[2])}), others)))
            first, others = self.chain(e, MULTIPLYING)
            return Con("Multiplying", (x(first), some_of(lambda o: Rec(
                {"place": place(o[0]), "operator": Con(MULTIPLYING[o[1]]), "factor": x(o[2])}), others)))
        attribute = NONE if e.attr is None else some(Rec({"place": place(e.attr_place or e.place), "attribute": Con(e.attr.capitalize())}))
        return Con("Named", (name(e.name), attribute, all_of(self.argument, e.args)))

    # ---- declarations

    def indication(self, m):
        if m.access is not None:
            c = some(Con("Access", (name(m.access),)))
        elif m.low is not None:
            c = some(Con("Range", (self.expression(m.low), self.expression(m.high))))
        else:
            c = NONE
        return Rec({"name": name(m.name), "constraint": c})

    def component(self, c):
        return Rec({"names": some_of(identifier, c.names), "subtype": self.indication(c.mark), "initial": self.optional(c.init)})

    def parameter(self, p):
        return Rec({"names": some_of(identifier, p.names), "is_in": bool(p.has_in), "is_out": bool(p.has_out),
                    "subtype": self.indication(p.mark)})

    def aspect(self, a):
        return Rec({"name": identifier(a.name), "value": self.optional(a.expr)})

    def specification(self, s):
        # the place of the word `procedure` or `function`; that of `overriding` stands before it
        return Rec({"overriding": some(place(s.place)) if s.overriding else NONE, "place": place(s.place), "name": identifier(s.name),
                    "parameters": all_of(self.parameter, s.params), "result": option(s.result, self.indication),
                    "aspects": all_of(self.aspect, s.aspects)})

    def entry(self, e):
        return Rec({"place": place(e.place), "name": identifier(e.name), "parameters": all_of(self.parameter, e.params)})

    def body(self, x):
        return Rec({"sequence": self.sequence(x.decls, x.seq.stmts, x.seq.handlers), "named_at_end": x.end_name is not None})

    def operation(self, x):
        if isinstance(x, self.t.EntryDecl):
            return Con("Entry", (self.entry(x),))
        return Con("Subprogram", (self.specification(x.spec),))

    def operation_body(self, x):
        if isinstance(x, self.t.EntryBody):
            head = Rec({"place": place(x.place), "name": identifier(x.name), "parameters": all_of(self.parameter, x.params),
                        "barrier": self.expression(x.barrier)})
            return Con("Entry", (head, self.body(x)))
        return Con("Subprogram", (self.specification(x.spec), self.body(x)))

    def declaration(self, x):
        t = self.t
        if isinstance(x, t.ObjectDecl):
            return Con("Object", (Rec({"names": some_of(identifier, x.names), "aliased": bool(x.aliased), "constant": bool(x.constant),
                                       "subtype": self.indication(x.mark), "initial": self.optional(x.init)}),))
        if isinstance(x, t.EnumType):
            d = Con("Enumeration", (some_of(identifier, x.literals),))
            return Con("Type", (Rec({"place": place(x.place), "name": identifier(x.name), "definition": d}),))
        if isinstance(x, t.ArrayType):
            d = Con("Array", (self.expression(x.low), self.expression(x.high), self.indication(x.elem)))
            return Con("Type", (Rec({"place": place(x.place), "name": identifier(x.name), "definition": d}),))
        if isinstance(x, t.DerivedType):
            d = Con("Derived", (name(x.parent), some(some_of(self.component, x.comps)) if x.comps else NONE))
            return Con("Type", (Rec({"place": place(x.place), "name": identifier(x.name), "definition": d}),))
        if isinstance(x, t.SubtypeDecl):
            return Con("Subtype", (Rec({"place": place(x.place), "name": identifier(x.name), "subtype": self.indication(x.mark)}),))
        if isinstance(x, t.ExceptionDecl):
            return Con("Exception", (some_of(identifier, x.names),))
        if isinstance(x, t.SubprogramDecl):
            return Con("Subprogram", (self.specification(x.spec),))
        if isinstance(x, t.SubprogramBody):
            return Con("SubprogramBody", (self.specification(x.spec), self.body(x)))
        if isinstance(x, t.TaskDecl):
            d = some(Rec({"entries": all_of(self.entry, x.entries), "named_at_end": x.end_name is not None})) if x.has_is else NONE
            return Con("Task", (Rec({"place": place(x.place), "is_type": bool(x.is_type), "name": identifier(x.name),
                                     "aspects": all_of(self.aspect, x.aspects), "definition": d}),))
        if isinstance(x, t.TaskBody):
            return Con("TaskBody", (place(x.place), identifier(x.name), self.body(x)))
        if isinstance(x, t.ProtDecl):
            return Con("Protected", (Rec({
                "place": place(x.place), "is_type": bool(x.is_type), "name": identifier(x.name), "aspects": all_of(self.aspect, x.aspects),
                "operations": all_of(self.operation, x.items),
                "components": some(all_of(self.component, x.private)) if x.has_private else NONE, "named_at_end": x.end_name is not None}),))
        if isinstance(x, t.ProtBody):
            return Con("ProtectedBody", (Rec({"place": place(x.place), "name": identifier(x.name),
                                              "operations": all_of(self.operation_body, x.items), "named_at_end": x.end_name is not None}),))
        assert isinstance(x, t.UseDecl)
        return Con("Use", (place(x.place), name(x.name)))

    # ---- statements

    def sequence(self, decls, stmts, handlers):
        return SequenceNode({"parts": Rec({"declarations": all_of(self.declaration, decls), "statements": some_of(self.statement, stmts),
                                           "handlers": all_of(self.handler, handlers)})})

    def statements(self, stmts):
        return self.sequence([], stmts, [])

    def if_any(self, stmts):
        return some(self.statements(stmts)) if stmts else NONE

    def handler(self, h):
        e = Con("Others", (place(h.others_place or h.place),)) if h.others else Con("Named", (some_of(name, h.choices),))
        return Rec({"place": place(h.place), "exceptions": e, "statements": self.statements(h.stmts)})

    def label(self, s):
        return option(s.label, lambda i: Rec({"name": identifier(i), "named_at_end": s.end_name is not None}))

    def choice(self, c):
        if c.others:
            return Con("Others", (place(c.place),))
        if c.high is None:
            return Con("Value", (self.expression(c.low),))
        return Con("Range", (self.expression(c.low), self.expression(c.high)))

    def call(self, s):
        return Rec({"name": name(s.name), "arguments": all_of(self.argument, s.args)})

    def delay(self, s):
        return Rec({"place": place(s.place), "until": bool(s.until), "value": self.expression(s.expr)})

    def accept(self, s):
        b = NONE if s.seq is None else some(Rec({"sequence": self.sequence([], s.seq.stmts, s.seq.handlers), "named_at_end": s.end_name is not None}))
        return Rec({"place": place(s.place), "entry": identifier(s.name), "parameters": all_of(self.parameter, s.params), "body": b})

    def alternative(self, a):
        guard = option(a.guard, lambda g: Rec({"place": place(a.place), "condition": self.expression(g)}))
        b = a.body
        if isinstance(b, self.t.AcceptStmt):
            x = Con("Accept", (self.accept(b), self.if_any(a.stmts)))
        elif isinstance(b, self.t.DelayStmt):
            x = Con("Delay", (self.delay(b), self.if_any(a.stmts)))
        else:
            x = Con("Terminate", (place(b.place),))
        return Rec({"guard": guard, "alternative": x})

    def statement(self, s):
        t, x = self.t, self.expression
        p = place(s.place)
        if isinstance(s, t.NullStmt):
            return Con("Null", (p,))
        if isinstance(s, t.Assign):
            return Con("Assignment", (Rec({"target": name(s.target.name), "index": self.optional(s.target.index), "value": x(s.expr)}),))
        if isinstance(s, t.CallStmt):
            return Con("Call", (self.call(s),))
        if isinstance(s, t.DelayStmt):
            return Con("Delay", (self.delay(s),))
        if isinstance(s, t.IfStmt):
            (_, c, ss), rest = s.branches[0], s.branches[1:]
            elsifs = tuple(Rec({"place": place(q), "condition": x(d), "statements": self.statements(tt)}) for q, d, tt in rest)
            return Con("If", (Rec({"place": p, "condition": x(c), "statements": self.statements(ss), "elsifs": elsifs,
                                   "otherwise": self.if_any(s.els)}),))
        if isinstance(s, t.CaseStmt):
            alternatives = some_of(lambda a: Rec({"place": place(a.place), "choices": some_of(self.choice, a.choices),
                                                  "statements": self.statements(a.stmts)}), s.alts)
            return Con("Case", (Rec({"place": p, "selector": x(s.expr), "alternatives": alternatives}),))
        if isinstance(s, t.LoopStmt):
            if s.kind == "plain":
                i = Con("Forever")
            elif s.kind == "while":
                i = Con("While", (p, x(s.cond)))
            else:
                i = Con("For", (p, identifier(s.var), bool(s.reverse), x(s.low), x(s.high)))
            return Con("Loop", (Rec({"label": self.label(s), "iteration": i, "place": p, "statements": self.statements(s.stmts)}),))
        if isinstance(s, t.ExitStmt):
            return Con("Exit", (Rec({"place": p, "loop_name": option(s.name, identifier), "condition": self.optional(s.cond)}),))
        if isinstance(s, t.BlockStmt):
            return Con("Block", (Rec({"label": self.label(s), "place": p, "declare": bool(s.has_declare),
                                      "sequence": self.sequence(s.decls, s.seq.stmts, s.seq.handlers)}),))
        if isinstance(s, t.ReturnStmt):
            return Con("Return", (p, self.optional(s.expr)))
        if isinstance(s, t.RaiseStmt):
            return Con("Raise", (p, option(s.name, name)))
        if isinstance(s, t.AbortStmt):
            return Con("Abort", (p, some_of(name, s.names)))
        if isinstance(s, t.AcceptStmt):
            return Con("Accept", (self.accept(s),))
        if isinstance(s, t.RequeueStmt):
            return Con("Requeue", (p, name(s.name), bool(s.with_abort)))
        if isinstance(s, t.SelectAccept):
            f = Con("SelectiveAccept", (Rec({"alternatives": some_of(self.alternative, s.alts), "otherwise": self.if_any(s.els)}),))
        elif isinstance(s, t.SelectCall) and s.delay is not None:
            f = Con("TimedEntryCall", (Rec({"call": self.call(s.call), "statements": self.if_any(s.stmts), "delay": self.delay(s.delay),
                                            "delay_statements": self.if_any(s.delay_stmts)}),))
        elif isinstance(s, t.SelectCall):
            f = Con("ConditionalEntryCall", (Rec({"call": self.call(s.call), "statements": self.if_any(s.stmts),
                                                  "otherwise": self.statements(s.els)}),))
        else:
            trigger = Con("Call", (self.call(s.trigger),)) if isinstance(s.trigger, t.CallStmt) else Con("Delay", (self.delay(s.trigger),))
            f = Con("AsynchronousSelect", (Rec({"trigger": trigger, "statements": self.if_any(s.stmts),
                                                "abortable": self.statements(s.abortable)}),))
        return Con("Select", (Rec({"place": p, "form": f}),))

    # ---- units

    def clause(self, c):
        return Rec({"place": place(c.place), "is_use": c.kind == "use", "names": some_of(name, c.names)})

    def package(self, lib):
        u = lib.unit
        if isinstance(u, self.t.Package):
            p = Con("Declaration", (Rec({"place": place(u.place), "name": identifier(u.name), "declarations": all_of(self.declaration, u.decls),
                                         "private": some(all_of(self.declaration, u.private)) if u.has_private else NONE,
                                         "named_at_end": u.end_name is not None}),))
        else:
            s = NONE if u.seq is None else some(self.sequence([], u.seq.stmts, u.seq.handlers))
            p = Con("Body", (Rec({"place": place(u.place), "name": identifier(u.name), "declarations": all_of(self.declaration, u.decls),
                                  "sequence": s, "named_at_end": u.end_name is not None}),))
        return Rec({"context": all_of(self.clause, lib.context), "package": p})

    def unit(self, source):
        main = source.units[-1]
        u = main.unit
        return Rec({
            "pragmas": tuple(Rec({"place": place(p.place), "name": identifier(p.name), "arguments": some_of(self.argument, p.args)})
                             for p in source.pragmas),
            "packages": tuple(self.package(lib) for lib in source.units[:-1]),
            "context": all_of(self.clause, main.context),
            "main": Rec({"place": place(u.place), "name": identifier(u.name), "aspects": all_of(self.aspect, u.aspects), "body": self.body(u)})})
