"""The image of a source by a front end in Python that is not in the repository, written apart from the definitions.

FOLDER holds that front end, with the modules `front` (accept), `tree`, `names`, `legal`, `values`, `kernel` and `script`. The
parts of an image are texts in the notation of `crates/profile_machine/specs/Notation.antt`, as `program_data.py` writes them
too. definitions/compare_images.py compares the two, and compare_runs.py has the machine run these.
"""
import os
import sys

sys.dont_write_bytecode = True
sys.path.insert(0, os.path.dirname(os.path.abspath(__file__)))
from program_data import items, number, option, text, truth    # noqa: E402


def modules_of(folder):
    sys.path.insert(0, folder)
    import front
    import kernel
    import legal
    import script
    import tree
    import values
    return {"front": front, "kernel": kernel, "legal": legal, "script": script, "tree": tree, "values": values}


class Lists:
    """The lists of the image, as texts."""

    def __init__(self):
        self.expressions = []
        self.statements = []


class Program:
    """The image of an accepted source."""

    def __init__(self, modules, source):
        self.front, self.t, self.values, self.legal = \
            modules["front"], modules["tree"], modules["values"], modules["legal"]
        self.tree = self.front.accept(source)
        self.image = self.tree.image
        self.lists = Lists()
        self.decl_numbers, self.decls = {}, []
        self.subprograms, self.subprogram_numbers = [], {}
        self.task_units, self.task_unit_numbers = [], {}
        self.protected_units, self.protected_unit_numbers = [], {}
        self.entries, self.entry_numbers = [], {}
        self.controlled, self.controlled_numbers = [], {}
        self.enumerations, self.enumeration_numbers = [], {}
        self.loops = {}
        self.scope_first = {}
        self.raise_scopes = modules["kernel"].Static(self.tree).keeper
        self.collect()
        self.bodies()

    # ------------------------------------------------------------ numbering

    def collect(self):
        """Each declaration that has cells or a name to print, each unit, entry and subprogram gets its number."""
        units = []
        for d in self.image.decls:
            if d.predefined or d.place is None:
                continue
            if d.kind in ("component", "exception") or \
                    d.kind in ("object", "param", "loopvar") and d.scope is not None:
                self.decl_numbers[d] = len(self.decls)
                self.decls.append(d)
            if d.kind == "subprogram" and d is not self.image.main and d.body is not None:
                self.subprogram_numbers[d] = len(self.subprograms)
                self.subprograms.append(d)
            if d.kind in ("type", "object") and d.type is not None:
                t = d.type.type
                if t.kind in ("task", "protected") and t.unit not in units:
                    units.append(t.unit)
                if d.kind == "type" and t.kind == "controlled" and t not in self.controlled_numbers:
                    self.controlled_numbers[t] = len(self.controlled)
                    self.controlled.append(t)
                if d.kind == "type" and t.kind == "enum" and t not in self.enumeration_numbers:
                    self.enumeration_numbers[t] = len(self.enumerations)
                    self.enumerations.append(t)
        for u in units:
            if hasattr(u, "ops"):
                self.protected_unit_numbers[u] = len(self.protected_units)
                self.protected_units.append(u)
            else:
                self.task_unit_numbers[u] = len(self.task_units)
                self.task_units.append(u)
            for e in u.entries:
                self.entry_numbers[e] = len(self.entries)
                self.entries.append(e)

    def decl(self, d):
        return f"(decl {self.decl_numbers[d]})"

    def scope(self, s):
        return f"(scope {s.no})"

    def subprogram(self, d):
        return f"(subprogram {self.subprogram_numbers[d]})"

    def entry(self, d):
        return f"(entry {self.entry_numbers[d]})"

    # ------------------------------------------------------------ values and ranges

    def value(self, v, kind):
        if kind == "integer":
            return f"(Whole {number(v)})"
        if kind == "boolean":
            return f"(Truth {truth(v)})"
        if kind == "enum":
            return f"(Literal {v})"
        if kind == "task_id":
            return "(Task None)"
        return f"(Ticks {number(v)})"

    def constraint(self, sub):
        kind = sub.type.kind
        if kind == "array":
            return self.constraint(sub.type.elem)
        if sub.low is None:
            return "Free"
        if kind == "integer":
            return f"(Whole {number(sub.low)} {number(sub.high)})"
        if kind == "boolean":
            return f"(Truth {truth(sub.low)} {truth(sub.high)})"
        if kind == "enum":
            return f"(Literal {sub.low} {sub.high})"
        if kind == "duration":
            return f"(Ticks {number(sub.low)} {number(sub.high)})"
        return "Free"

    def index(self, t):
        """The range of an array's index."""
        sub = getattr(t, "index", None)
        kind = "integer" if sub is None else sub.type.kind
        if kind == "boolean":
            return f"(Truth {truth(t.low)} {truth(t.high)})"
        if kind == "enum":
            return f"(Literal {t.low} {t.high})"
        return f"(Whole {number(t.low)} {number(t.high)})"

    def first(self, sub):
        """What a cell of this subtype begins with."""
        kind = sub.type.kind
        if kind == "array":
            return self.first(sub.type.elem)
        return self.value(self.values.first_value(sub), kind)

    # ------------------------------------------------------------ names and expressions

    def bare(self, e):
        while isinstance(e, self.t.Paren):
            e = e.inner
        return e

    def put_expression(self, body):
        self.lists.expressions.append(body)
        return f"(expr {len(self.lists.expressions) - 1})"

    def object_name(self, use):
        d = use.decl
        if d.kind == "component":
            if use.object is not None:
                return f"(Component {self.decl(use.object)} {self.decl(d)})"
            unit = self.protected_unit_numbers[d.owner.unit]
            return f"(OwnComponent (protected_unit {unit}) {self.decl(d)})"
        return f"(Declared {self.decl(d)})"

    def variable(self, use, index):
        """A variable by its use and, of a component of an array, the index expression."""
        i = None if use.kind != "index" else self.expression(index)
        return f"(variable {self.object_name(use)} {option(i)})"

    def variable_of(self, e):
        e = self.bare(e)
        return self.variable(e.use, e.actuals[0] if e.use.kind == "index" else None)

    UNARY = {"+": "unary.Plus", "-": "unary.Minus", "abs": "unary.Abs", "not": "unary.Not"}
    BINARY = {"and": "And", "or": "Or", "xor": "Xor", "and then": "AndThen", "or else": "OrElse", "=": "Equal",
              "/=": "NotEqual", "<": "Less", "<=": "LessOrEqual", ">": "Greater", ">=": "GreaterOrEqual",
              "+": "Plus", "-": "Minus", "*": "Times", "/": "Divide", "mod": "Mod", "rem": "Rem"}

    def expression(self, e):
        t = self.t
        e = self.bare(e)
        if isinstance(e, t.Num):
            v = e.static if e.static is not None else e.whole
            return self.put_expression(f"Known {self.value(v, 'duration' if e.frac is not None else 'integer')}")
        if isinstance(e, t.Unary):
            if e.op == "-" and isinstance(e.operand, t.Num):
                n = e.operand
                v = n.static if n.static is not None else n.whole
                return self.put_expression(f"Known {self.value(-v, 'duration' if n.frac is not None else 'integer')}")
            operand = self.expression(e.operand)
            return self.put_expression(f"Unary {self.UNARY[e.op]} {operand}")
        if isinstance(e, t.Binary):
            left = self.expression(e.left)
            right = self.expression(e.right)
            return self.put_expression(f"Binary binary.{self.BINARY[e.op]} {left} {right}")
        return self.put_expression(self.name_expression(e))

    def thing(self, e):
        """The declaration of the object that an actual names."""
        return self.decl(self.bare(e).use.decl)

    def name_expression(self, e):
        u = e.use
        k = u.kind
        if k in ("object", "param", "loopvar", "component"):
            if k != "component" and u.decl.type.type.kind in self.values.THING_KINDS:
                return f"Thing {self.decl(u.decl)}"
            return f"Variable {self.variable(u, None)}"
        if k == "index":
            return f"Variable {self.variable(u, e.actuals[0])}"
        if k == "constant0":
            kind = u.decl.type.type.kind
            return f"Known {self.value(u.decl.value, kind)}"
        if k == "literal":
            kind = u.decl.type.type.kind
            return f"Known {self.value(u.decl.value, kind)}"
        if k in ("first", "last"):
            return f"Known {self.value(e.static, self.values.kind_of(e))}"
        if k == "count":
            return f"Count {self.entry(u.decl)}"
        if k == "identity":
            return f"Thing {self.decl(u.decl)}"
        assert k == "predef", k
        return self.predefined(u.op.key, e.actuals or [])

    SPANS = {"microseconds": 1, "milliseconds": 1000, "seconds": 1000000, "minutes": 60000000}

    def predefined(self, key, actuals):
        name = key.rpartition(".")[2]
        if key == "ada.real_time.clock":
            return "Clock"
        if name in self.SPANS:
            return f"Span {number(self.SPANS[name])} {self.expression(actuals[0])}"
        if name in ("to_duration", "to_time_span"):
            return f"SameTicks {self.expression(actuals[0])}"
        if name == "current_task":
            return "CurrentTask"
        optional = {"ada.execution_time.clock": "ExecutionTime", "ada.dynamic_priorities.get_priority": "Priority",
                    "ada.dispatching.edf.get_deadline": "Deadline"}
        if key in optional:
            task = self.expression(actuals[0]) if actuals and actuals[0] is not None else None
            return f"{optional[key]} {option(task)}"
        things = {"time_of_event": "TimeOfEvent", "time_remaining": "TimeRemaining",
                  "budget_has_expired": "BudgetHasExpired", "budget_remaining": "BudgetRemaining"}
        if name in things:
            return f"{things[name]} {self.thing(actuals[0])}"
        assert key == "script_ports.value", key
        return f"PortValue {self.expression(actuals[0])}"

    # ------------------------------------------------------------ statements

    def reserve(self):
        self.lists.statements.append(None)
        return len(self.lists.statements) - 1

    def set(self, n, form, signs, next_):
        self.lists.statements[n] = f"statement ({form}) {signs} {self.onward(next_)}"

    def add(self, form, signs, next_):
        n = self.reserve()
        self.set(n, form, signs, next_)
        return n

    def onward(self, n):
        return "None" if n is None else f"(Some (stmt {n}))"

    def at(self, n):
        return f"(stmt {n})"

    def list(self, stmts, next_, within):
        for s in reversed(stmts or []):
            next_ = self.statement(s, next_, within)
        return next_

    def count(self, *exprs):
        return self.values.count(*exprs)

    def user_call(self, e):
        e = self.bare(e)
        if isinstance(e, self.t.NameExpr) and e.use is not None and e.use.kind in ("subprogram", "prot_call"):
            return e
        return None

    def callee(self, use):
        s = self.subprogram(use.decl)
        if use.kind == "subprogram":
            return f"(callee.Subprogram {s})"
        if use.object is not None:
            return f"(callee.Operation {self.decl(use.object)} {s})"
        return f"(callee.OwnOperation {s})"

    def actuals(self, formals, actuals):
        out = []
        for p, a in zip(formals, actuals or []):
            if p.type.type.kind in self.values.THING_KINDS:
                out.append(f"actual.Thing {self.thing(a)}")
            elif p.mode == "in":
                out.append(f"actual.In {self.expression(a)}")
            elif p.mode == "out":
                out.append(f"actual.Out {self.variable_of(a)}")
            else:
                out.append(f"actual.InOut {self.variable_of(a)}")
        return items(out)

    def call(self, use, actuals, destination):
        return f"form.Call {self.callee(use)} {self.actuals(use.decl.params, actuals)} {destination}"

    def statement(self, s, next_, within):
        return getattr(self, "do_" + type(s).__name__)(s, next_, within)

    def do_NullStmt(self, s, next_, within):
        return self.add("form.Null", 0, next_)

    def do_Assign(self, s, next_, within):
        signs = self.count(s.expr, s.target.index)
        kind = s.target.use.decl.type.type.kind
        if kind == "controlled":
            source = self.bare(s.expr)
            return self.add(f"form.AssignControlled {self.decl(s.target.use.decl)} {self.decl(source.use.decl)}", 0, next_)
        if kind == "array" and s.target.use.kind != "index":
            source = self.bare(s.expr)
            return self.add(f"form.AssignArray {self.object_name(s.target.use)} {self.object_name(source.use)}", signs, next_)
        target = self.variable(s.target.use, s.target.index)
        call = self.user_call(s.expr)
        if call is not None:
            return self.add(self.call(call.use, call.actuals, f"(destination.Variable {target})"), signs, next_)
        return self.add(f"form.Assign {target} {self.expression(s.expr)}", signs, next_)

    def do_IfStmt(self, s, next_, within):
        otherwise = self.list(s.els, next_, within)
        for _, cond, ss in reversed(s.branches):
            first = self.list(ss, next_, within)
            otherwise = self.add(f"form.If {self.expression(cond)} {self.at(first)} {self.onward(otherwise)}",
                                 self.count(cond), next_)
        return otherwise

    def choice(self, c, kind):
        if c.others:
            return "choice.Others"
        low = self.value(c.low.static, kind)
        if c.high is None:
            return f"choice.Single {low}"
        return f"choice.Range {low} {self.value(c.high.static, kind)}"

    def do_CaseStmt(self, s, next_, within):
        kind = self.values.kind_of(s.expr)
        alts = []
        for a in s.alts:
            first = self.list(a.stmts, next_, within)
            alts.append(f"alternative {items([self.choice(c, kind) for c in a.choices])} {self.at(first)}")
        return self.add(f"form.Case {self.expression(s.expr)} {items(alts)}", self.count(s.expr), next_)

    def do_LoopStmt(self, s, next_, within):
        n = self.reserve()
        self.loops[s] = n
        w = self.onward(within)
        if s.kind == "plain":
            self.set(n, f"form.Loop {self.at(self.list(s.stmts, n, within))} {w}", 0, next_)
        elif s.kind == "while":
            body = self.list(s.stmts, n, within)
            self.set(n, f"form.While {self.expression(s.cond)} {self.at(body)} {w}", self.count(s.cond), next_)
        else:
            first, later = self.reserve(), self.reserve()
            body = self.list(s.stmts, later, within)
            d, r = self.decl(s.var.decl), truth(s.reverse)
            self.set(first, f"form.FirstTurn {d} {r} {self.at(body)}", 0, next_)
            self.set(later, f"form.LaterTurn {d} {r} {self.at(body)}", 0, next_)
            low, high = self.expression(s.low), self.expression(s.high)
            self.set(n, f"form.For {d} {r} {low} {high} {self.at(first)} {w}", self.count(s.low, s.high), next_)
        return n

    def do_ExitStmt(self, s, next_, within):
        cond = None if s.cond is None else self.expression(s.cond)
        return self.add(f"form.Exit {option(cond)} {self.at(self.loops[s.loop])}", self.count(s.cond), next_)

    def do_BlockStmt(self, s, next_, within):
        n = self.reserve()
        self.scope_first[s.scope] = self.body(s.decls, s.seq, n, [])
        self.set(n, f"form.Block {self.scope(s.scope)}", 0, next_)
        return n

    def do_ReturnStmt(self, s, next_, within):
        if s.expr is None:
            return self.add("form.Return", 0, next_)
        f = self.subprogram(s.of)
        call = self.user_call(s.expr)
        if call is not None:
            return self.add(self.call(call.use, call.actuals, f"(destination.Return {f})"), self.count(s.expr), next_)
        return self.add(f"form.ReturnValue {f} {self.expression(s.expr)}", self.count(s.expr), next_)

    STANDARD = {"constraint_error": "Constraint", "program_error": "Program", "storage_error": "Storage",
                "tasking_error": "Tasking", "timer_resource_error": "TimerResource",
                "group_budget_error": "GroupBudget", "dispatching_policy_error": "DispatchingPolicy"}

    def exception(self, d):
        if d.predefined:
            return f"exception.{self.STANDARD[d.name]}"
        return f"(exception.User {self.decl_numbers[d]})"

    def do_RaiseStmt(self, s, next_, within):
        if s.name is not None:
            return self.add(f"form.Raise {self.exception(s.name.decl)}", 0, next_)
        return self.add(f"form.RaiseAgain {self.scope(self.raise_scopes[s])}", 0, next_)

    def do_DelayStmt(self, s, next_, within):
        form = "form.DelayUntil" if s.until else "form.Delay"
        return self.add(f"{form} {self.expression(s.expr)}", self.count(s.expr), next_)

    def args_of(self, s):
        return [a.expr for a in s.args or []]

    def entry_call(self, s):
        owner = "owner.Own" if s.use.object is None else f"(owner.Object {self.decl(s.use.object)})"
        return f"form.EntryCall {self.entry(s.use.decl)} {owner} {self.actuals(s.use.decl.profile, s.actuals)}"

    def do_CallStmt(self, s, next_, within):
        signs = self.count(*self.args_of(s))
        k = s.use.kind
        if k in ("subprogram", "prot_call"):
            return self.add(self.call(s.use, s.actuals, "destination.Nowhere"), signs, next_)
        if k == "entry_call":
            return self.add(self.entry_call(s), signs, next_)
        return self.add(self.procedure(s.use.op.key, s.actuals), signs, next_)

    def pieces(self, e):
        t = self.t
        e = self.bare(e)
        if isinstance(e, t.Binary):
            return self.pieces(e.left) + self.pieces(e.right)
        if isinstance(e, t.Text):
            return [f"piece.Text {text(e.value)}"]
        typ = e.use.decl.type.type
        x = self.expression(e.actuals[0])
        if typ.kind == "integer":
            return [f"piece.Whole {x}"]
        if typ.kind == "boolean":
            return [f"piece.Truth {x}"]
        return [f"piece.Literal {x} (enumeration {self.enumeration_numbers[typ]})"]

    def handler(self, e):
        e = self.bare(e)
        if isinstance(e, self.t.Null):
            return "None"
        return f"(Some (handler_name {self.decl(e.use.object)} {self.subprogram(e.use.decl)}))"

    def procedure(self, key, a):
        unit, _, name = key.rpartition(".")
        if key == "ada.text_io.put_line":
            return f"form.PutLine {items(self.pieces(a[0]))}"
        if name.startswith("set_handler/"):
            kind = "SetEvent" if unit.endswith("timing_events") else "SetTimer"
            setting = "In" if name.endswith("in_time") else "At"
            return f"form.{kind} {self.thing(a[0])} (setting.{setting} {self.expression(a[1])}) {self.handler(a[2])}"
        if name == "set_handler":
            return f"form.SetBudget {self.thing(a[0])} {self.handler(a[1])}"
        if name == "cancel_handler":
            kind = {"timing_events": "CancelEvent", "timers": "CancelTimer",
                    "group_budgets": "CancelBudget"}[unit.rpartition(".")[2]]
            return f"form.{kind} {self.thing(a[0])} {self.variable_of(a[1])}"
        if name in ("add_task", "remove_task", "replenish", "add"):
            kind = {"add_task": "AddTask", "remove_task": "RemoveTask", "replenish": "Replenish",
                    "add": "AddToBudget"}[name]
            return f"form.{kind} {self.thing(a[0])} {self.expression(a[1])}"
        optional = a[1] if len(a) > 1 else None
        if name in ("set_priority", "set_deadline"):
            kind = "SetPriority" if name == "set_priority" else "SetDeadline"
            x = self.expression(a[0])
            return f"form.{kind} {x} {option(None if optional is None else self.expression(optional))}"
        if name == "set_quantum":
            return f"form.SetQuantum {self.expression(a[0])} {self.expression(a[1])}"
        assert name == "delay_until_and_set_deadline", key
        return f"form.DelayUntilAndSetDeadline {self.expression(a[0])} {self.expression(a[1])}"

    def do_AbortStmt(self, s, next_, within):
        return self.add(f"form.Abort {items([self.decl(n.decl) for n in s.names])}", 0, next_)

    def do_AcceptStmt(self, s, next_, within):
        n = self.reserve()
        self.scope_first[s.scope] = None if s.seq is None else self.sequence(s.seq, None, n, None)
        self.set(n, f"form.Accept {self.entry(s.entry)} {self.scope(s.scope)}", 0, next_)
        return n

    def do_RequeueStmt(self, s, next_, within):
        owner = "owner.Own" if s.use.object is None else f"(owner.Object {self.decl(s.use.object)})"
        return self.add(f"form.Requeue {self.entry(s.use.decl)} {owner} {truth(s.with_abort)}", 0, next_)

    def do_SelectAccept(self, s, next_, within):
        alts, signs = [], 0
        for a in s.alts:
            signs += self.count(a.guard)
            guard = None if a.guard is None else self.expression(a.guard)
            if isinstance(a.body, self.t.TerminateAlt):
                kind = "select.Terminate"
            else:
                behind = self.list(a.stmts, next_, within)
                n = self.statement(a.body, behind, within)
                kind = f"(select.{'Accept' if isinstance(a.body, self.t.AcceptStmt) else 'Delay'} {self.at(n)})"
                if isinstance(a.body, self.t.DelayStmt):
                    signs += self.count(a.body.expr)
            alts.append(f"select_alternative {option(guard)} {kind}")
        otherwise = None if s.els is None else self.list(s.els, next_, within)
        return self.add(f"form.SelectiveAccept {items(alts)} {self.onward(otherwise)}", signs, next_)

    def do_SelectCall(self, s, next_, within):
        call = self.do_CallStmt(s.call, self.list(s.stmts, next_, within), within)
        signs = self.count(*self.args_of(s.call))
        if s.delay is not None:
            delay = self.do_DelayStmt(s.delay, self.list(s.delay_stmts, next_, within), within)
            return self.add(f"form.TimedCall {self.at(call)} {self.at(delay)}", signs + self.count(s.delay.expr), next_)
        otherwise = self.list(s.els, next_, within)
        return self.add(f"form.ConditionalCall {self.at(call)} {self.at(otherwise)}", signs, next_)

    def do_SelectAsync(self, s, next_, within):
        n = self.reserve()
        behind = self.list(s.stmts, next_, within)
        trigger = self.statement(s.trigger, behind, within)
        abortable = self.list(s.abortable, None, n)
        signs = self.count(*self.args_of(s.trigger)) if isinstance(s.trigger, self.t.CallStmt) \
            else self.count(s.trigger.expr)
        self.set(n, f"form.AsynchronousSelect {self.at(trigger)} {self.at(abortable)}", signs, next_)
        return n

    # ------------------------------------------------------------ declarations and bodies

    def declarations(self, decls, next_, part):
        """The actions of a list of declarations; the answer is the first, and whether tasks are made."""
        t, makes = self.t, False
        todo = []
        for x in decls:
            if isinstance(x, t.ObjectDecl):
                todo += [i.decl for i in x.names]
            elif isinstance(x, (t.TaskDecl, t.ProtDecl)) and not x.is_type:
                todo.append(x.name.decl)
        for d in reversed(todo):
            kind = d.type.type.kind
            if kind == "task":
                makes = True
                next_ = self.add(f"form.CreateTask {self.decl(d)} {part}", 0, next_)
                continue
            if kind == "controlled":
                next_ = self.add(f"form.Initialize {self.decl(d)}", 0, next_)
            call = None if d.init is None else self.user_call(d.init)
            if call is not None:
                next_ = self.add(self.call(call.use, call.actuals, f"(destination.Declaration {self.decl(d)})"),
                                 self.count(d.init), next_)
                continue
            signs = self.count(d.init)
            if kind in ("protected", "controlled"):
                comps = d.type.type.components if kind == "controlled" else d.type.type.unit.components
                signs = self.count(*[c.init for c in comps])
            next_ = self.add(f"form.Declare {self.decl(d)}", signs, next_)
        return next_, makes

    def makes_tasks(self, decls):
        t = self.t
        return any(isinstance(x, t.ObjectDecl) and x.names[0].decl.type.type.kind == "task" or
                   isinstance(x, t.TaskDecl) and not x.is_type for x in decls)

    def sequence(self, seq, next_, within, activate):
        """A sequence of statements, with its handlers, and the activation of the part's tasks before it."""
        if seq is None:
            return next_ if activate is None else self.add(f"form.Activate {activate}", 0, next_)
        if not seq.handlers:
            first = self.list(seq.stmts, next_, within)
            return first if activate is None else self.add(f"form.Activate {activate}", 0, first)
        n = self.reserve()
        first = self.list(seq.stmts, None, n)
        if activate is not None:
            first = self.add(f"form.Activate {activate}", 0, first)
        handlers = []
        for h in seq.handlers:
            choices = ["exception_choice.Others"] if h.others else \
                [f"exception_choice.Named {self.exception(c.decl)}" for c in h.choices]
            handlers.append(f"handler {items(choices)} {self.at(self.list(h.stmts, next_, within))}")
        self.set(n, f"form.Handled {items(handlers)} {self.at(first)}", 0, next_)
        return n

    def body(self, decls, seq, within, before):
        """The first action of a block or body; `before` are forms that stand between declarations and statements."""
        self.inner(decls)
        first = self.sequence(seq, None, within, 0 if self.makes_tasks(decls) else None)
        for form in reversed(before):
            first = self.add(form, 0, first)
        return self.declarations(decls, first, 0)[0]

    def inner(self, decls):
        """The bodies that stand in a declarative part."""
        t = self.t
        for x in decls:
            if isinstance(x, (t.SubprogramBody, t.EntryBody)):
                self.scope_first[x.scope] = self.body(x.decls, x.seq, None, [])
            elif isinstance(x, t.TaskBody):
                self.scope_first[x.scope] = self.body(x.decls, x.seq, None, ["form.EndActivation"])
            elif isinstance(x, t.ProtBody):
                self.inner(x.items)

    def bodies(self):
        t, tree, image = self.t, self.tree, self.image
        infos = {info.decl.name: info for info in image.packages}
        parts = {name: i + 1 for i, name in enumerate(infos)}
        next_ = self.add("form.CallMain", 0, None)
        for lib in reversed(tree.units):
            u = lib.unit
            if isinstance(u, t.Package):
                info, part = infos[u.name.text], parts[u.name.text]
                decls = u.decls + u.private
                self.inner(decls)
                if info.body is None and self.makes_tasks(decls):
                    next_ = self.add(f"form.Activate {part}", 0, next_)
                next_ = self.declarations(decls, next_, part)[0]
            elif isinstance(u, t.PackageBody):
                info, part = infos[u.name.text], parts[u.name.text]
                self.inner(u.decls)
                makes = self.makes_tasks(u.decls) or self.makes_tasks(info.spec.decls + info.spec.private)
                next_ = self.sequence(u.seq, next_, None, part if makes else None)
                next_ = self.declarations(u.decls, next_, part)[0]
            else:
                self.scope_first[u.scope] = self.body(u.decls, u.seq, None, [])
        self.scope_first[image.environment] = next_

    # ------------------------------------------------------------ the lists

    def initial(self, d):
        if d.init is None or self.user_call(d.init) is not None:
            return "initial.Default"
        if d.type.type.kind == "array":
            return f"(initial.Array {self.object_name(self.bare(d.init).use)})"
        return f"(initial.Scalar {self.expression(d.init)})"

    def declaration_kind(self, d):
        if d.kind in ("param", "loopvar"):
            return "kind.Parameter"
        if d.kind == "exception":
            return "kind.Other"
        t = d.type.type
        if t.kind == "task":
            return f"(kind.Task (task_unit {self.task_unit_numbers[t.unit]}))"
        if t.kind == "protected":
            return f"(kind.Protected (protected_unit {self.protected_unit_numbers[t.unit]}))"
        if t.kind == "controlled":
            return f"(kind.Controlled (controlled_type {self.controlled_numbers[t]}))"
        if t.kind == "event":
            return "kind.Event"
        if t.kind == "timer":
            return f"(kind.Timer {self.decl(d.timer_of)})"
        if t.kind == "budget":
            return "kind.Budget"
        return f"(kind.Object {self.initial(d)})"

    def declaration(self, d):
        names = f"{text(d.name)} {text(d.expanded)} {self.declaration_kind(d)}"
        if d.kind == "exception":
            return f"declaration {names} (scope 0) 0 0 Free None"
        scope = "(scope 0)" if d.kind == "component" else self.scope(d.scope)
        if d.kind == "loopvar":
            return f"declaration {names} {scope} {d.at} {d.cells} Free None"
        t = d.type.type
        if t.kind in self.values.THING_KINDS:
            return f"declaration {names} {scope} {d.at} {d.cells} Free None"
        index = f"(Some {self.index(t)})" if t.kind == "array" else "None"
        return f"declaration {names} {scope} {d.at} {d.cells} {self.constraint(d.type)} {index}"

    def component_runs(self, d, components, own):
        """The cells of an object's components that do not begin as Whole(0)."""
        runs = []
        for c in components:
            first = self.first(c.type)
            if first != "(Whole (pos 0))":
                runs.append(f"cell_run {d.at + own + c.at} {c.cells} {first}")
        return runs

    def scope_text(self, s):
        runs = []
        for d in s.decls:
            if d.kind == "loopvar":
                continue
            t = d.type.type
            if t.kind == "protected" and d.kind == "object":
                runs += self.component_runs(d, t.unit.components, 16)
            elif t.kind == "controlled" and d.kind == "object":
                runs += self.component_runs(d, t.components, 1)
            if t.kind in self.values.THING_KINDS:
                continue
            first = self.first(d.type)
            if first != "(Whole (pos 0))":
                runs.append(f"cell_run {d.at} {d.cells} {first}")
        outer = None if s.parent is None else self.scope(s.parent)
        size = len(s.node.param_decls) if s.kind == "accept" else s.size
        return f"scope_text {option(outer)} {size} {items(runs)} {truth(s.kept)} {self.onward(self.scope_first.get(s))}"

    def formal(self, p):
        if p.type.type.kind in self.values.THING_KINDS:
            return "formal Free (Whole (pos 0))"
        return f"formal {self.constraint(p.type)} {self.first(p.type)}"

    def subprogram_text(self, d):
        unit = None
        if getattr(d, "unit", None) is not None and hasattr(d.unit, "ops"):
            unit = f"(protected_unit {self.protected_unit_numbers[d.unit]})"
        result = None if not d.is_function else self.constraint(d.result)
        return f"subprogram_text {text(d.name)} {self.scope(d.body_scope)} " \
               f"{items([self.formal(p) for p in d.params])} {option(result)} {option(unit)}"

    def task_unit(self, u):
        priority = None if u.priority is None else str(u.priority)
        deadline = None if u.relative_deadline is None else self.expression(u.relative_deadline)
        return f"task_unit_text {self.scope(u.body_scope)} {option(priority)} {option(deadline)} " \
               f"{items([self.entry(e) for e in u.entries])}"

    def protected_unit(self, u):
        attached = [f"attachment {n} {self.subprogram(op)}" for n, op in sorted(u.attached.items())]
        return f"protected_unit_text {u.ceiling} {items([self.entry(e) for e in u.entries])} " \
               f"{items([self.decl(c) for c in u.components])} {items(attached)}"

    def entry_text(self, e):
        if hasattr(e.unit, "ops"):
            unit = f"(unit.Protected (protected_unit {self.protected_unit_numbers[e.unit]}))"
            body = f"(Some (entry_body {self.expression(e.body.barrier)} {self.scope(e.body_scope)}))"
        else:
            unit, body = f"(unit.Task (task_unit {self.task_unit_numbers[e.unit]}))", "None"
        return f"entry_text {text(e.name)} {unit} {e.unit.entries.index(e)} " \
               f"{items([self.formal(p) for p in e.profile])} {body}"

    def controlled_type(self, t):
        ops = [option(None if getattr(t, n) is None else self.subprogram(getattr(t, n)))
               for n in ("initialize", "finalize", "adjust")]
        return f"controlled_text {items([self.decl(c) for c in t.components])} {' '.join(ops)}"

    def policies(self):
        image = self.image
        ranges, policy = [], image.policy
        words = {"fifo": "FifoWithinPriorities", "rr": "RoundRobinWithinPriorities", "edf": "EdfAcrossPriorities"}
        level = 0
        edf = {low: high for low, high in [(x[0], x[1]) for x in image.edf]}
        while level < len(policy):
            p = policy[level]
            last = level
            if p == "edf":
                last = edf[level]
            else:
                while last + 1 < len(policy) and policy[last + 1] == p:
                    last += 1
            if p != "fifo":
                ranges.append(f"dispatching_range {words[p]} {level} {last}")
            level = last + 1
        queuing = "queuing.Priority" if image.queuing == "priority" else "queuing.Fifo"
        longest = None if image.max_queue is None else str(image.max_queue)
        return f"(policies {items(ranges)} {queuing} {option(longest)} {image.last})"

    def main(self):
        m = self.image.main
        base = m.priority if m.priority is not None else self.image.default_priority
        return f"(main_procedure {text(m.expanded)} {base} {self.scope(m.body_scope)})"

    def data(self):
        """The fields of the image, as (name, text)."""
        scopes = [self.scope_text(s) for s in self.image.scopes]
        units = [self.task_unit(u) for u in self.task_units]
        entries = [self.entry_text(e) for e in self.entries]
        declarations = [self.declaration(d) for d in self.decls]
        fields = [("declarations", declarations), ("expressions", self.lists.expressions),
                  ("statements", self.lists.statements), ("scopes", scopes),
                  ("subprograms", [self.subprogram_text(d) for d in self.subprograms]),
                  ("task_units", units),
                  ("protected_units", [self.protected_unit(u) for u in self.protected_units]),
                  ("entries", entries),
                  ("controlled_types", [self.controlled_type(t) for t in self.controlled]),
                  ("enumerations", [f"enumeration_text {items([text(x.name.upper()) for x in t.literals])}"
                                    for t in self.enumerations])]
        return fields, self.policies(), self.scope(self.image.environment), self.main()
