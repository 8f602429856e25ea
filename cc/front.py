"""Declarations: what names stand for, variables with their places, initial values, and which functions call which."""
import collections

from pycparser import c_ast as tree

from passes import ARGUMENTS, FIRST, improve, tidy
from registers import allocate
from statements import Statements
from values import (
    INT, POINTER, TASK_PREFIX, UINT, VOID, Form, Function, Group, Integer, Object, Refusal, Struct, Value, Variable,
    named_type, refuse_if)

OBJECT_TYPES = {'TaskType': 'task', 'ResourceType': 'resource', 'EventMaskType': 'event', 'AlarmType': 'alarm'}
SMALL, GROWTH = 40, 60      # nodes of a function that stands where it is called, and of its further places

def weight(node):
    """The nodes of a body, many where it has a loop or static data."""
    heavy = isinstance(node, (tree.While, tree.For, tree.DoWhile, tree.Switch)) \
        or isinstance(node, tree.Decl) and 'static' in node.storage
    return (1000 if heavy else 1) + sum(weight(child) for _, child in node.children())

class Translation(Statements):
    """A file of C: its symbols, and the functions that are written, those first that others call."""
    def __init__(self, configuration, inline=True):
        self.configuration, self.inline = configuration, inline
        self.scopes, self.functions, self.symbols, self.steps, self.promised = [{}], {}, {}, [], {}
        self.function = self.spot = self.constant = self.bound = None
        self.breaks, self.continues, self.inlining = [], [], []

    def translated(self, file):
        for node in file.ext:
            self.spot = node.coord or self.spot
            if isinstance(node, tree.Typedef):
                self.scopes[0][node.name] = self.resolved(node.type)
            elif isinstance(node, tree.FuncDef):
                self.define(node)
            elif isinstance(node, tree.Decl):
                self.declare(node)
            elif not isinstance(node, tree.Pragma):
                raise Refusal(node, 'this is left out')
        for name, node in self.promised.items():
            raise Refusal(node, f'{name} is declared here, and stands nowhere in the file')
        order = self.call_order()
        for f in order:
            self.translate_body(f)
        return [f for f in order if f.steps is not None]

    # functions and their calls
    def define(self, node):
        name = node.decl.name
        f = Function(name, *self.signature(node.decl, node.decl.type), node)
        if f.is_task:
            f.name = name = name[len(TASK_PREFIX):]
        refuse_if(name in self.SERVICES or name.startswith('__'), node.decl, f'{name} is a name of the translator')
        old = self.functions.pop(name, None)
        refuse_if(old and old.node, node.decl, f'a second body of {name}')
        if old and (old.result, [t for _, t in old.parameters]) != (f.result, [t for _, t in f.parameters]):
            raise Refusal(node.decl, f'{name} was declared with other types')
        self.functions[name] = f
        if not f.is_task:
            self.name_at(node.decl, name, f)

    def name_at(self, node, name, thing):
        """A name of the innermost scope."""
        old = self.scopes[-1].get(name)
        if old is not None and not (isinstance(old, Function) and isinstance(thing, Function)):
            raise Refusal(node, f'{name} is declared twice')
        self.scopes[-1][name] = thing

    def signature(self, node, declarator):
        result, lengths, _ = self.resolved(declarator.type)
        refuse_if(not isinstance(result, Integer) or lengths, node, 'a function gives an integer or nothing')
        parameters = []
        for p in declarator.args.params if declarator.args else []:
            refuse_if(isinstance(p, tree.EllipsisParam), node, 'a variable number of arguments is left out')
            refuse_if(isinstance(p, tree.ID), p, 'parameters without types are left out')
            kind, lengths, _ = self.resolved(p.type)
            if kind is VOID and not lengths and len(declarator.args.params) == 1:
                continue
            if not isinstance(kind, Integer) or kind is VOID or lengths:
                raise Refusal(p, 'parameters are integers: no pointers, arrays or structures')
            parameters.append((getattr(p, 'name', None), kind))
        refuse_if(len(parameters) > len(ARGUMENTS), node, f'there are {len(ARGUMENTS)} parameters at most')
        return result, parameters

    def call_order(self):
        """The functions, those first that others call; which tasks reach each; which stand where they are called."""
        bodies, order = [f for f in self.functions.values() if f.node], []
        for f in bodies:
            self.find_calls(f, f.node.body)
        for f in sorted(bodies, key=lambda f: not f.is_task):
            self.visit(f, [], order)
        for task in (f for f in bodies if f.is_task):
            todo = [task]
            while todo:
                f = todo.pop()
                if task.name not in f.tasks:
                    f.tasks.add(task.name)
                    todo += [self.functions[n] for n in f.calls]
        for f in order:
            own = weight(f.node.body)
            f.weight = own + sum(self.functions[n].weight for n in f.calls if self.functions[n].is_inline)
            f.is_inline = self.inline and not f.is_task and own <= SMALL and f.weight * (f.sites - 1) <= GROWTH
        return order

    def find_calls(self, function, node):
        if isinstance(node, tree.FuncCall) and isinstance(node.name, tree.ID):
            found = self.functions.get(node.name.name)
            if found and found.node and not found.is_task:
                function.calls.setdefault(found.name, node)
                found.sites += 1
        for _, child in node.children():
            self.find_calls(function, child)

    def visit(self, f, path, order):
        if f in path:
            chain = [g.name for g in path[path.index(f):]] + [f.name]
            raise Refusal(f.calls[chain[1]], f'{f.name} calls itself ({" -> ".join(chain)}): there is no recursion')
        if f not in order:
            for name in f.calls:
                self.visit(self.functions[name], path + [f], order)
            order.append(f)

    def translate_body(self, f):
        self.function, self.steps, self.labels, self.last, self.depth = f, [], collections.Counter(), FIRST - 1, 0
        self.spot, self.scopes, self.bound = f.node.decl.coord, [self.scopes[0], {}], None
        for register, (name, kind) in zip(ARGUMENTS, f.parameters):
            self.emit('mv', self.parameter(f.node.decl, name, kind), (register,))
        self.do_Compound(f.node.body)
        self.spot = f.node.decl.coord
        self.emit('ret')
        self.scopes = self.scopes[:1]
        steps = tidy(self.steps)
        for s in steps if f.is_task else []:
            chains = any(t.op == 'service' and t.detail[0] == 'ChainTask' for t in steps)
            refuse_if(s.op == 'ret', s.spot, f'the task {f.name} can end without TerminateTask'
                      + ' (ChainTask goes on where the task is not suspended)' * chains)
        self.function = None
        if f.tasks and not f.is_inline:
            improve(steps)
            f.steps, f.frame, f.changed = allocate(steps, f, self.fresh, lambda: self.last)

    def found(self, node, name=None):
        name = name or node.name
        for scope in reversed(self.scopes):
            if name in scope:
                return scope[name]
        raise Refusal(node, f'{name} is not declared')

    def resolved(self, node):
        """The type that a declarator says, its lengths, and its qualifiers."""
        if isinstance(node, tree.ArrayDecl):
            length = None if node.dim is None else self.constant_number(node.dim)
            refuse_if(length is not None and length < 1, node, 'the length of an array is not above 0')
            kind, lengths, qualifiers = self.resolved(node.type)
            return kind, [length] + lengths, qualifiers
        if isinstance(node, tree.PtrDecl):
            return POINTER, [], []
        if isinstance(node, (tree.TypeDecl, tree.Typename)):
            kind, lengths, qualifiers = self.resolved(node.type)
            return kind, lengths, qualifiers + list(node.quals or [])
        if isinstance(node, tree.Enum):
            return self.enumeration(node), [], []
        if isinstance(node, tree.Struct):
            return self.structure(node), [], []
        if isinstance(node, tree.IdentifierType):
            return self.named(node)
        what = {tree.Union: 'unions are left out: a place has one type', tree.FuncDecl: 'a function stands here'}
        raise Refusal(node, what.get(type(node), 'this type is not known'))

    def named(self, node):
        kind = named_type(node.names)
        if kind:
            return kind, [], []
        if set(node.names) & {'float', 'double', '_Complex'}:
            raise Refusal(node, 'floating point is left out: use integers of a fixed scale')
        refuse_if(node.names.count('long') > 1, node, '64 bit integers are left out')
        found = self.found(node, node.names[0]) if len(node.names) == 1 else None
        refuse_if(not isinstance(found, tuple), node, 'this type is not known')
        return found[0], list(found[1]), list(found[2])

    def structure(self, node):
        key = 'struct ' + (node.name or '')
        if node.decls is None:
            return self.found(node, key)
        fields = []
        for d in node.decls:
            refuse_if(not isinstance(d, tree.Decl) or d.bitsize is not None, d, 'bit fields are left out: use & and |')
            kind, lengths, _ = self.resolved(d.type)
            self.need_object(d, kind, lengths)
            refuse_if(d.name is None or d.name in (f[0] for f in fields), d, 'each field has a name of its own')
            fields.append((d.name, kind, lengths))
        struct = Struct(fields)
        if node.name:
            self.scopes[-1][key] = struct
        return struct

    def enumeration(self, node):
        """As gcc has it: without negative numbers an unsigned int."""
        if node.values is None:
            return self.found(node, 'enum ' + node.name)
        number, kind = 0, UINT
        for e in node.values.enumerators:
            number = number if e.value is None else self.constant_number(e.value)
            kind = INT if number < 0 else kind
            self.name_at(e, e.name, Value(INT, INT.wrap(number)))
            number += 1
        if node.name:
            self.scopes[-1]['enum ' + node.name] = kind
        return kind

    def need_object(self, node, kind, lengths):
        name = node.name or 'this'
        if kind is POINTER:
            raise Refusal(node, f'{name} is a pointer: there are none, only arrays by index, and &x where a service '
                          'answers in x')
        refuse_if(kind is VOID, node, f'{name} is void')
        refuse_if(None in lengths, node, f'{name} has no length')

    def declare(self, node):
        if isinstance(node.type, tree.FuncDecl):
            return self.declare_function(node)
        kind, lengths, qualifiers = self.resolved(node.type)
        if node.name is None:
            return None
        words = getattr(getattr(node.type, 'type', None), 'names', [None])
        if 'extern' in node.storage and words[0] in OBJECT_TYPES and 'const' in qualifiers:
            self.scopes[-1][node.name] = Object(node.name, OBJECT_TYPES[words[0]])
            return None
        if lengths and lengths[0] is None and isinstance(node.init, tree.InitList):
            lengths[0] = len(node.init.exprs)
        self.need_object(node, kind, lengths)
        if self.function is None or 'static' in node.storage:
            return self.declare_data(node, kind, lengths, qualifiers)
        refuse_if('extern' in node.storage, node, 'extern stands outside functions')
        return self.declare_local(node, kind, lengths, qualifiers)

    def declare_function(self, node):
        name = node.name
        if name in self.SERVICES or name.startswith(TASK_PREFIX):
            return
        refuse_if(name.startswith('__'), node, f'{name} is a name of the translator')
        f = Function(name, *self.signature(node, node.type), None)
        self.functions.setdefault(name, f)
        if name not in self.scopes[0]:
            self.scopes[0][name] = f

    def declare_data(self, node, kind, lengths, qualifiers):
        """Of the file, or static."""
        old = self.scopes[-1].get(node.name)
        if self.function is None and isinstance(old, (Variable, Group)) and (old.type, old.lengths) == (kind, lengths):
            variable = old
        else:
            is_local = self.function is not None
            form = Form(qualifiers, True, is_local or 'static' in node.storage)
            path = None if is_local else node.name + '[]' * len(lengths)
            variable = self.variable(node.name, kind, lengths, form, path)
            self.name_at(node, node.name, variable)
            for leaf in variable.leaves():
                leaf.is_fixed = leaf.is_const and not leaf.is_volatile
        if 'extern' not in node.storage or node.init is not None:
            self.promised.pop(node.name, None)
        elif variable is not old:
            self.promised[node.name] = node
        if node.init is not None:
            self.fill(variable, node.init, [], self.set_data)

    def declare_local(self, node, kind, lengths, qualifiers):
        """In registers; arrays in a room of their own: that is enough, since one task comes here and nothing recurs."""
        is_room = bool(lengths) or isinstance(kind, Struct) and kind.has_arrays()
        if is_room and len(self.function.tasks) > 1:
            raise Refusal(node, f'{node.name} is an array of a function that several tasks call '
                          f'({", ".join(sorted(self.function.tasks))}): there is room for one alone')
        variable = self.variable(node.name, kind, lengths, Form(qualifiers, is_room, True), None)
        if isinstance(variable, Group) or is_room:
            self.name_at(node, node.name, variable)
            if node.init is not None:
                self.fill_now(variable, node.init)
            return
        first = node.init
        while isinstance(first, tree.InitList):
            refuse_if(len(first.exprs) != 1, node, 'one value is wanted here')
            first = first.exprs[0]
        if first is not None:
            self.put((variable, 0, None), self.wanted(first))
        self.name_at(node, node.name, variable)

    def parameter(self, node, name, kind):
        variable = self.variable(name, kind, [], Form([], False, True), None)
        if name:
            self.name_at(node, name, variable)
        return variable.register

    def variable(self, name, kind, lengths, form, path):
        """A variable of that form; path is its name in C."""
        if isinstance(kind, Struct):
            def field(n, t, more):
                return self.variable(f'{name}_{n}', t, lengths + more, form, path and f'{path}.{n}' + '[]' * len(more))
            return Group(kind, lengths, {n: field(n, t, more) for n, t, more in kind.fields})
        v = Variable(name, kind, lengths)
        v.is_const, v.is_volatile = 'const' in form.qualifiers, 'volatile' in form.qualifiers
        v.is_used, v.path = not form.is_inner, path
        if not form.is_data:
            v.register = self.fresh()
            return v
        v.symbol, count = 'frame_' if name == 'frame' else name, 1
        while v.symbol in self.symbols:
            count += 1
            v.symbol = f'{name}_{count}'
        self.symbols[v.symbol] = v
        total = kind.size
        for room in v.rooms:
            total *= room
        refuse_if(total > 32768, self.spot, f'{name} takes more than 32768 bytes')
        v.data = bytearray(total)
        return v

    # initial values
    def set_data(self, variable, offset, init):
        size, number = variable.type.size, self.convert(self.constant_value(init), variable.type).number
        variable.data[offset:offset + size] = (number % (1 << 8 * size)).to_bytes(size, 'little')

    def fill(self, variable, init, index, put):
        """Gives each value of an initializer to put, with its variable and offset."""
        if not isinstance(init, tree.InitList):
            if isinstance(variable, Group) or len(index) < len(variable.lengths):
                raise Refusal(init.coord or self.spot, 'values in { } are wanted here')
            put(variable, sum(k * stride for k, stride in zip(index, variable.strides())), init)
        elif len(index) < len(variable.lengths):
            for k, e in self.placed(init, None, variable.lengths[len(index)]):
                self.fill(variable, e, index + [k], put)
        elif isinstance(variable, Group):
            names = list(variable.fields)
            for k, e in self.placed(init, names, len(names)):
                self.fill(variable.fields[names[k]], e, index, put)
        elif len(init.exprs) != 1:
            raise Refusal(init, 'one value is wanted here')
        else:
            self.fill(variable, init.exprs[0], index, put)

    def placed(self, init, names, count):
        """The values of { }, each with the number of its element or field."""
        at = 0
        for e in init.exprs:
            if isinstance(e, tree.NamedInitializer):
                key = e.name[0]
                if len(e.name) > 1 or names is not None and getattr(key, 'name', None) not in names:
                    raise Refusal(e, 'no such element or field')
                at, e = self.constant_number(key) if names is None else names.index(key.name), e.expr
            refuse_if(not 0 <= at < count, e, f'a value outside the {count} that there is room for')
            yield at, e
            at += 1

    def fill_now(self, variable, init):
        """Values of an array or structure of a function: stores where it is declared."""
        given = {}
        self.fill(variable, init, [], lambda leaf, offset, node: given.update({(leaf, offset): node}))
        for leaf in variable.leaves():
            leaf.is_used = True
            for offset in leaf.offsets():
                node = given.get((leaf, offset))
                self.put((leaf, offset, None), Value(INT, 0) if node is None else self.wanted(node))
