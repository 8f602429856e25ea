"""Statements, calls, and the services of OSEK."""
from pycparser import c_ast as tree

from expressions import Expressions
from passes import ARGUMENTS, NAMES
from text import ROUTINES
from values import INT, NOTHING, U8, UINT, VOID, Object, Refusal, Value, Variable, promoted, refuse_if

DEEP_CASE = 'a case stands directly in the block of its switch'
LEFT_OUT = {'Goto': 'goto is left out', 'Label': 'labels are left out', 'Case': DEEP_CASE, 'Default': DEEP_CASE}
DECLARED = {'task': 'DeclareTask', 'resource': 'DeclareResource', 'event': 'DeclareEvent', 'alarm': 'DeclareAlarm'}
ROUNDS = 10000      # of a loop that are counted at most

class Statements(Expressions):
    # the kinds of the operands; `value` goes to a0 and a1, `answer` is where a1 goes
    SERVICES = {
        'ActivateTask': ['task'], 'ChainTask': ['task'], 'TerminateTask': [], 'Schedule': [], 'GetTaskID': ['answer'],
        'GetTaskState': ['task', 'answer'], 'GetResource': ['resource'], 'ReleaseResource': ['resource'],
        'SetEvent': ['task', 'event'], 'ClearEvent': ['event'], 'WaitEvent': ['event'], 'GetEvent': ['task', 'answer'],
        'SetRelAlarm': ['alarm', 'value', 'value'], 'SetAbsAlarm': ['alarm', 'value', 'value'],
        'CancelAlarm': ['alarm'], 'GetAlarm': ['alarm', 'answer']}

    def statement(self, node):
        if node is None or isinstance(node, tree.EmptyStatement):
            return
        self.spot = node.coord or self.spot
        kind = type(node).__name__
        if self.bound is not None and kind not in ('For', 'While', 'DoWhile'):
            raise Refusal(node, 'in front of this stands a bound, but it is no loop')
        refuse_if(kind in LEFT_OUT, node, LEFT_OUT.get(kind))
        getattr(self, 'do_' + kind, self.value)(node)

    def do_Pragma(self, node):
        words = node.string.split(None, 1)
        if words[:1] == ['bound']:
            text = words[1].strip().strip('()') if len(words) > 1 else 'nothing'
            refuse_if(not text.rstrip('uU').isdigit(), node, f'a bound is a number, not {text}')
            self.bound = int(text.rstrip('uU'))

    def do_Compound(self, node):
        self.scopes.append({})
        for item in node.block_items or []:
            self.statement(item)
        refuse_if(self.bound is not None, node, 'a bound stands in front of no loop')
        self.scopes.pop()

    def do_Decl(self, node):
        self.declare(node)

    def do_DeclList(self, node):
        for d in node.decls:
            self.declare(d)

    def do_Typedef(self, node):
        self.scopes[-1][node.name] = self.resolved(node.type)

    def do_Return(self, node):
        f, result, end = self.inlining[-1] if self.inlining else (self.function, ARGUMENTS[0], None)
        refuse_if(f.is_task, node, 'a task ends by TerminateTask, not by return')
        value = self.value(node.expr) if node.expr is not None else NOTHING
        if (value.type is VOID) != (f.result is VOID):
            raise Refusal(node, f'{f.name} gives {"nothing" if f.result is VOID else "a value"}')
        if f.result is not VOID:
            self.set_register(result, self.convert(value, f.result))
        if end:
            self.emit('j', detail=end)
        else:
            self.emit('ret', None, (result,) if f.result is not VOID else ())

    def do_If(self, node):
        yes, no = self.label('then'), self.label('else')
        self.condition(node.cond, yes, no, yes)
        self.mark(yes)
        self.statement(node.iftrue)
        end = self.label('end') if node.iffalse is not None else None
        if end:
            self.emit('j', detail=end)
        self.mark(no)
        if end:
            self.statement(node.iffalse)
            self.mark(end)

    def do_While(self, node):
        self.loop(node, 'while', None, False)

    def do_DoWhile(self, node):
        self.loop(node, 'do', None, True)

    def do_For(self, node):
        self.scopes.append({})
        bound, self.bound = self.bound, None
        if node.init is not None:
            self.statement(node.init)
        self.spot = node.coord
        begins, rounds = self.rounds(node)
        self.bound = rounds if bound is None else bound
        self.loop(node, 'for', node.next, begins)
        self.scopes.pop()

    def loop(self, node, kind, step, begins):
        """The test stands at the end; begins says that the first one holds."""
        top, again, test, end = (self.label(k) for k in (kind, 'next', 'test', 'end'))
        bound, self.bound = self.bound, None
        self.emit('loop', detail=(top, bound))
        known = self.known_value(node.cond) if node.cond is not None else Value(INT, 1)
        if not begins and not (known and known.number):
            self.emit('j', detail=test)
        self.depth += 1
        self.mark(top)
        self.breaks.append(end)
        self.continues.append(again)
        self.statement(node.stmt)
        self.breaks.pop()
        self.continues.pop()
        self.mark(again)
        self.spot = node.coord
        if step is not None:
            self.value(step)
        self.mark(test)
        if node.cond is None:
            self.emit('j', detail=top)
        else:
            self.condition(node.cond, top, end, end)
        self.depth -= 1
        self.emit('endloop')
        self.mark(end)

    def rounds(self, node):
        """Of a `for` that counts: whether the first test holds, and how often the body runs, or None."""
        init = node.init.decls[0] if isinstance(node.init, tree.DeclList) and len(node.init.decls) == 1 else node.init
        name, first = None, None
        if isinstance(init, tree.Decl):
            name, first = init.name, init.init
        elif isinstance(init, tree.Assignment) and init.op == '=' and isinstance(init.lvalue, tree.ID):
            name, first = init.lvalue.name, init.rvalue
        counter = next((scope[name] for scope in reversed(self.scopes) if name in scope), None)
        number = self.known_value(first) if first is not None else None
        if number is None or node.cond is None or not isinstance(counter, Variable) or counter.register is None:
            return False, None
        count, value = 0, Value(counter.type, counter.type.wrap(number.number))
        is_left_alone = not assigns(node.stmt, name)
        while count < ROUNDS:
            self.scopes.append({name: value})
            holds, value = self.known_value(node.cond), self.next_value(node.next, name, value)
            self.scopes.pop()
            if holds is None or not holds.number or value is None or not is_left_alone:
                ends = is_left_alone and holds is not None and not holds.number
                return bool(count or holds and holds.number), count if ends else None
            count += 1
        return True, None

    def next_value(self, step, name, value):
        """What a counter is after the last part of its `for`, if that is told."""
        if isinstance(step, tree.UnaryOp) and assigns(step, name):
            by = Value(INT, 1)
        elif isinstance(step, tree.Assignment) and getattr(step.lvalue, 'name', None) == name and step.op != '=':
            by = self.known_value(step.rvalue)
        else:
            return None
        op = step.op[-1] if isinstance(step, tree.UnaryOp) else step.op[:-1]
        return by and self.convert(self.binary(op, value, by, step), value.type)

    def do_Break(self, node):
        refuse_if(not self.breaks, node, 'a break outside loops and switches')
        self.emit('j', detail=self.breaks[-1])

    def do_Continue(self, node):
        refuse_if(not self.continues, node, 'a continue outside loops')
        self.emit('j', detail=self.continues[-1])

    def do_Switch(self, node):
        value = self.wanted(node.cond)
        value = self.convert(value, promoted(value.type))
        items = (node.stmt.block_items or []) if isinstance(node.stmt, tree.Compound) else [node.stmt]
        items = [item for item in items if not isinstance(item, tree.Pragma)]
        end, cases, places, default = self.label('end'), {}, [], None
        for item in items:
            if isinstance(item, tree.Case):
                number = self.convert(self.constant_value(item.expr), value.type).number
                refuse_if(number in cases, item, f'a second case {number}')
                cases[number] = self.label('case')
                places.append(cases[number])
            elif isinstance(item, tree.Default):
                refuse_if(default, item, 'a second default')
                default = self.label('default')
                places.append(default)
            else:
                raise Refusal(item, 'in a switch there is no statement in front of the first case')
        if value.number is not None:
            self.emit('j', detail=cases.get(value.number, default or end))
        else:
            kept = Value(value.type, None, self.step('mv', value.register), value.low, value.high)
            self.choose(kept, sorted(cases.items()), default or end)
        self.breaks.append(end)
        self.scopes.append({})
        for item, place in zip(items, places):
            self.mark(place)
            for inner in item.stmts or []:
                self.statement(inner)
        self.scopes.pop()
        self.breaks.pop()
        self.mark(end)

    def choose(self, value, cases, default):
        """A search by comparisons."""
        if len(cases) <= 3:
            for number, label in cases:
                self.emit('beq', None, (value.register, self.register(Value(value.type, number))), label)
            self.emit('j', detail=default)
            return
        half, low = len(cases) // 2, self.label('below')
        middle = self.register(Value(value.type, cases[half][0]))
        self.emit('blt' if value.type.signed else 'bltu', None, (value.register, middle), low)
        self.choose(value, cases[half:], default)
        self.mark(low)
        self.choose(value, cases[:half], default)

    def callee(self, node):
        name = getattr(node.name, 'name', None)
        refuse_if(not isinstance(node.name, tree.ID), node, 'a function is called by its name')
        f = self.functions.get(name)
        if f is None or f.is_task or any(name in scope for scope in self.scopes[1:]):
            raise Refusal(node, f'{name} is no function of the file')
        refuse_if(f.node is None, node, f'{name} has no body')
        return f

    def of_FuncCall(self, node):
        refuse_if(self.constant, node, 'no constant expression')
        arguments = node.args.exprs if node.args else []
        if getattr(node.name, 'name', None) in self.SERVICES:
            return self.service(node, node.name.name, arguments)
        f = self.callee(node)
        self.need_count(node, f.name, arguments, f.parameters)
        values = [self.convert(self.wanted(e), kind) for e, (_, kind) in zip(arguments, f.parameters)]
        if f.is_inline:
            return self.inlined(f, values)
        self.pass_values(values)
        call = self.emit('call', None, ARGUMENTS[:len(arguments)], f.name)
        call.changes = f.changed | (0 if f.result is VOID else 1 << ARGUMENTS[0])
        return NOTHING if f.result is VOID else Value(f.result, None, self.step('mv', ARGUMENTS[0]))

    def need_count(self, node, name, given, wanted):
        refuse_if(len(given) != len(wanted), node, f'{name} has {len(wanted)} parameter{"s" * (len(wanted) != 1)}')

    def pass_values(self, values):
        for argument, register in zip(ARGUMENTS, [self.register(v) for v in values]):
            self.emit('mv', argument, (register,))

    def routine(self, name, a, b):
        self.pass_values([a, b])
        call = self.emit('call', None, ARGUMENTS[:2], name)
        call.changes = sum(1 << NAMES.index(n) for n in ROUTINES[name].changes)
        return [self.step('mv', ARGUMENTS[0]), self.step('mv', ARGUMENTS[1])]

    def inlined(self, f, values):
        """The body of a small function, in the place of a call."""
        scopes, self.scopes = self.scopes, [self.scopes[0], {}]
        outer = self.breaks, self.continues
        self.breaks, self.continues = [], []
        for (name, kind), value in zip(f.parameters, values):
            self.set_register(self.parameter(f.node.decl, name, kind), value)
        self.inlining.append((f, None if f.result is VOID else self.fresh(), self.label('ret')))
        self.do_Compound(f.node.body)
        _, result, end = self.inlining.pop()
        self.mark(end)
        self.scopes, (self.breaks, self.continues) = scopes, outer
        return NOTHING if result is None else Value(f.result, None, result)

    def object_name(self, node, kind):
        found = self.found(node) if isinstance(node, tree.ID) else None
        if not isinstance(found, Object) or found.kind != kind:
            name = node.name if isinstance(node, tree.ID) else 'this'
            raise Refusal(node, f'{name} is not declared by {DECLARED[kind]}')
        return found.name

    def event_names(self, node):
        if isinstance(node, tree.BinaryOp) and node.op == '|':
            return self.event_names(node.left) + self.event_names(node.right)
        return [self.object_name(node, 'event')]

    def service(self, node, name, arguments):
        kinds = self.SERVICES[name]
        self.need_count(node, name, arguments, kinds)
        self.spot = node.coord or self.spot
        if name in ('TerminateTask', 'ChainTask') and (self.inlining or not self.function.is_task):
            raise Refusal(node, f'{name} stands in a function: a task ends in its own body')
        words, values, place = [], [], None
        for kind, e in zip(kinds, arguments):
            if kind == 'value':
                values.append(self.convert(self.wanted(e), UINT))
            elif kind == 'answer':
                if not isinstance(e, tree.UnaryOp) or e.op != '&':
                    raise Refusal(e, f'{name} answers in a variable: &x is wanted')
                place = self.place(e.expr)
            else:
                words += self.event_names(e) if kind == 'event' else [self.object_name(e, kind)]
        self.pass_values(values)
        step = self.emit('service', None, ARGUMENTS[:len(values)], (name, words))
        step.changes = 1 << ARGUMENTS[0] | (1 << ARGUMENTS[1] if place else 0)
        if name == 'TerminateTask':
            return NOTHING
        status = self.step('mv', ARGUMENTS[0])
        if place:
            self.assign(place, Value(UINT, None, self.step('mv', ARGUMENTS[1])), node)
        return Value(U8, None, status, 0, 8)

def assigns(node, name):
    """Whether a statement assigns to the variable."""
    place = node.lvalue if isinstance(node, tree.Assignment) else node.expr if isinstance(node, tree.UnaryOp) else None
    if getattr(place, 'name', None) == name and getattr(node, 'op', '=') not in ('!', '~', '+', '-', 'sizeof'):
        return True
    return node is not None and any(assigns(child, name) for _, child in node.children())
