"""Expressions: steps, constants, places in memory, values and conditions."""
from pycparser import c_ast as tree

from passes import INVERSE, Step
from values import (
    BOOL, INT, NOTHING, POINTER, UINT, VOID, ZERO, Arithmetic, Function, Group, Integer, Object, Refusal, Value,
    Variable, common_type, literal, promoted, refuse_if)

COMPARISONS = {'==', '!=', '<', '>', '<=', '>='}
STORE = {1: 'sb', 2: 'sh', 4: 'sw'}

class Expressions(Arithmetic):
    def fresh(self):
        self.last += 1
        return self.last

    def emit(self, op, result=None, uses=(), detail=None):
        refuse_if(self.constant or self.function is None, self.spot, 'no constant expression')
        self.steps.append(Step(op, result, uses, detail, self.spot, self.depth))
        return self.steps[-1]

    def step(self, op, *uses, detail=None):
        result = None if self.constant or self.function is None else self.fresh()
        self.emit(op, result, uses, detail)
        return result

    def label(self, kind):
        name = f'{kind}_{getattr(self.spot, "line", 0)}'
        self.labels[name] += 1
        return name if self.labels[name] == 1 else f'{name}_{self.labels[name]}'

    def mark(self, label):
        self.emit('label', detail=label)

    def register(self, value):
        if value.number is None:
            return value.register
        return ZERO if value.number == 0 else self.step('li', detail=value.number)

    def set_register(self, register, value):
        if value.number is not None:
            self.emit('li', register, detail=value.number)
        else:
            self.emit('mv', register, (value.register,))

    def constant_value(self, node, how='strict'):
        """Strictly, as C has constant expressions; `known` are also values of const variables."""
        outer, self.constant = self.constant, how
        spot, self.spot = self.spot, node.coord or self.spot
        try:
            value = self.value(node)
        finally:
            self.constant, self.spot = outer, spot
        refuse_if(value.number is None or value.type is VOID, node, 'no constant expression')
        return value

    def constant_number(self, node):
        return self.constant_value(node).number

    def known_value(self, node):
        try:
            return self.constant_value(node, self.constant or 'known')
        except Refusal:
            return None

    # places
    def entity(self, node):
        """The variable that a place names, and its indices."""
        if isinstance(node, tree.ID):
            found = self.found(node)
            if isinstance(found, (Variable, Group)):
                return found, []
            raise Refusal(node, f'{node.name} is no variable')
        if isinstance(node, tree.ArrayRef):
            variable, index = self.entity(node.name)
            refuse_if(len(index) >= len(variable.lengths), node, 'what is indexed is no array')
            return variable, index + [node.subscript]
        if isinstance(node, tree.StructRef) and node.type == '.':
            variable, index = self.entity(node.name)
            if not isinstance(variable, Group) or node.field.name not in variable.fields:
                raise Refusal(node, f'no field {node.field.name}')
            refuse_if(len(index) < len(variable.lengths), node, 'an array is used as a structure')
            return variable.fields[node.field.name], index
        if isinstance(node, tree.StructRef) or isinstance(node, tree.UnaryOp) and node.op in '*&':
            raise Refusal(node, 'there are no pointers: &x stands only where a service answers in x')
        raise Refusal(node, 'a variable, an element or a field is wanted here')

    def place(self, node):
        """A variable, an offset, and the register of an index in bytes, or None."""
        variable, index = self.entity(node)
        refuse_if(isinstance(variable, Group), node, 'structures are used field by field')
        if len(index) < len(variable.lengths):
            raise Refusal(node, f'{variable.name} is an array: only its elements have values, by index')
        variable.is_used = True
        offset, register = 0, None
        for k, (e, stride) in enumerate(zip(index, variable.strides())):
            number, part = self.index(variable, k, e, stride)
            offset += number * stride
            if part is not None:
                register = part if register is None else self.step('add', register, part)
        if register is not None and offset:
            register = self.binary('+', Value(INT, None, register), Value(INT, offset), node).register
        variable.is_indexed |= register is not None
        return variable, offset, register

    def index(self, variable, k, node, stride):
        """A number, or a register of bytes. The access masks its index, so what the mask does anyhow is left out."""
        known = self.known_value(node)
        if known is None:
            short = self.unmasked(node, variable.rooms[0]) if k == 0 else node
            value = self.unshifted(short, stride) if len(variable.lengths) == 1 and stride > 1 else None
            if value is not None:
                return 0, value.register
            value = self.value(short)
            refuse_if(value.type is VOID, node, 'a value is wanted here')
            if value.number is None:
                shift = stride.bit_length() - 1
                return 0, self.step('slli', value.register, detail=shift) if shift else value.register
            known = Value(UINT, value.number & variable.rooms[0] - 1) if short is not node else value
        refuse_if(not 0 <= known.number < variable.lengths[k], node, f'{variable.name} has no element {known.number}')
        return known.number, None

    def unmasked(self, node, room):
        while isinstance(node, tree.BinaryOp) and node.op == '&':
            mask = self.known_value(node.right)
            if mask is None or mask.number != room - 1:
                break
            node = node.left
        return node

    def unshifted(self, node, stride):
        """Of x >> 2 as the index of words x itself, in bytes."""
        if not isinstance(node, tree.BinaryOp) or node.op != '>>':
            return None
        by = self.known_value(node.right)
        if by is None or by.number != stride.bit_length() - 1 or self.known_value(node.left):
            return None
        value = self.value(node.left)
        return value if value.number is None else None

    def load(self, place):
        variable, offset, index = place
        kind = variable.type
        if index is None and variable.is_fixed and self.constant != 'strict':
            return Value(kind, kind.wrap(int.from_bytes(variable.data[offset:offset + kind.size], 'little')))
        if variable.register is not None and not self.constant:
            return Value(kind, None, variable.register)
        op = {1: 'lb' if kind.signed else 'lbu', 2: 'lh' if kind.signed else 'lhu', 4: 'lw'}[kind.size]
        step = self.emit(op, None, () if index is None else (index,), (variable, offset))
        step.result = self.fresh()
        return Value(kind, None, step.result)

    def put(self, place, value):
        """Stores a value, and gives what the place then has."""
        variable, offset, index = place
        kind = variable.type
        if variable.register is not None:
            value = self.convert(value, kind)
            self.set_register(variable.register, value)
            return value if value.number is not None else Value(kind, None, variable.register)
        register = self.register(value) if kind is not BOOL and value.number is None else None     # (for its low bits)
        value = self.convert(value, kind)
        register = self.register(value) if register is None else register
        self.emit(STORE[kind.size], None, (register,) if index is None else (register, index), (variable, offset))
        return value

    def assign(self, place, value, node):
        refuse_if(place[0].is_const, node, f'{place[0].name} is const')
        refuse_if(value.type is VOID, node, 'a value is wanted here')
        return self.put(place, value)

    def type_alone(self, node):
        """The type of what is not evaluated."""
        count = len(self.steps)
        kind = self.value(node).type
        del self.steps[count:]
        return kind

    def size_of(self, node):
        if isinstance(node.expr, tree.Typename):
            kind, lengths, _ = self.resolved(node.expr.type)
        elif isinstance(node.expr, (tree.ID, tree.ArrayRef, tree.StructRef)) and not (
                isinstance(node.expr, tree.ID) and isinstance(self.found(node.expr), (Value, Object))):
            variable, index = self.entity(node.expr)
            kind, lengths = variable.type, variable.lengths[len(index):]
        else:
            kind, lengths = self.type_alone(node.expr), []
        if not isinstance(kind, Integer) or None in lengths:
            raise Refusal(node, 'sizeof is of integers and of arrays of them: the fields of a structure stand apart')
        size = kind.size
        for length in lengths:
            size *= length
        return Value(UINT, size)

    def value(self, node):
        form = getattr(self, 'of_' + type(node).__name__, None)
        refuse_if(form is None, node, f'{type(node).__name__} is left out')
        return form(node)

    def wanted(self, node):
        value = self.value(node)
        refuse_if(value.type is VOID or not isinstance(value.type, Integer), node, 'a value is wanted here')
        return value

    def of_Constant(self, node):
        return literal(node)

    def of_ID(self, node):
        found = self.found(node)
        if isinstance(found, Value):
            return found
        refuse_if(isinstance(found, Function), node, f'{node.name} is a function, and can only be called')
        if not isinstance(found, Object):
            return self.load(self.place(node))
        refuse_if(self.constant == 'strict', node, 'no constant expression')
        number = self.configuration.number(found.kind, node.name) if self.configuration else None
        if number is None:
            raise Refusal(node, f'the number of {node.name} is not known' + (
                '' if self.configuration else ': name the configuration, --oil FILE.oil'))
        return Value(UINT, number)

    def of_ArrayRef(self, node):
        return self.load(self.place(node))

    of_StructRef = of_ArrayRef

    def of_UnaryOp(self, node):
        if node.op == 'sizeof':
            return self.size_of(node)
        refuse_if(node.op in ('&', '*'), node, 'there are no pointers: &x stands only where a service answers in x')
        if node.op in ('++', '--', 'p++', 'p--'):
            return self.counted_up(node)
        value = self.wanted(node.expr)
        if node.op == '!':
            return self.binary('==', value, Value(INT, 0), node)
        value = self.convert(value, promoted(value.type))
        if node.op == '-':
            return self.binary('-', Value(INT, 0), value, node)
        if node.op == '~':
            return self.binary('^', value, Value(INT, -1), node)
        if node.op == '+':
            return value
        raise Refusal(node, f'{node.op} is left out')

    def counted_up(self, node):
        place = self.place(node.expr)
        refuse_if(self.constant, node, 'no constant expression')
        old = self.load(place)
        if node.op[0] == 'p' and place[0].register is not None:
            old = Value(old.type, None, self.step('mv', old.register))
        new = self.assign(place, self.binary(node.op[-1], old, Value(INT, 1), node), node)
        return old if node.op[0] == 'p' else new

    def of_BinaryOp(self, node):
        if node.op in ('&&', '||'):
            return self.logical(node)
        left = self.wanted(node.left)
        return self.binary(node.op, left, self.wanted(node.right), node)

    def of_Assignment(self, node):
        place = self.place(node.lvalue)
        refuse_if(self.constant, node, 'no constant expression')
        if node.op == '=':
            return self.assign(place, self.value(node.rvalue), node)
        old = self.load(place)
        return self.assign(place, self.binary(node.op[:-1], old, self.wanted(node.rvalue), node), node)

    def of_Cast(self, node):
        kind, lengths, _ = self.resolved(node.to_type.type)
        if not isinstance(kind, Integer) or lengths:
            raise Refusal(node, 'there are no pointers' if kind is POINTER else 'structures are set field by field')
        value = self.value(node.expr)
        return NOTHING if kind is VOID else self.convert(value, kind)

    def of_ExprList(self, node):
        return [self.value(e) for e in node.exprs][-1]

    def logical(self, node):
        if self.constant:
            left = self.wanted(node.left)
            if bool(left.number) == (node.op == '||'):
                return Value(INT, int(node.op == '||'))
            return Value(INT, int(self.wanted(node.right).number != 0))
        known = self.known_value(node)
        if known is not None:
            return known
        result, yes, no = self.fresh(), self.label('yes'), self.label('no')
        self.emit('li', result, detail=0)
        self.condition(node, yes, no, yes)
        self.mark(yes)
        self.emit('li', result, detail=1)
        self.mark(no)
        return Value(INT, None, result, 0, 1)

    def of_TernaryOp(self, node):
        """Both arms have the register of the result as they are: promotions leave a register alone."""
        known = self.constant_value(node.cond, self.constant) if self.constant else self.known_value(node.cond)
        if known is not None:
            live, dead = (node.iftrue, node.iffalse) if known.number else (node.iffalse, node.iftrue)
            other, value = self.type_alone(dead), self.value(live)
            return value if VOID in (value.type, other) else self.convert(value, common_type(value.type, other))
        yes, no, end, result = self.label('then'), self.label('else'), self.label('end'), self.fresh()
        self.condition(node.cond, yes, no, yes)
        arms = []
        for label, arm in ((yes, node.iftrue), (no, node.iffalse)):
            self.mark(label)
            arms.append(self.value(arm))
            if arms[-1].type is not VOID:
                self.set_register(result, arms[-1])
            if label is yes:
                self.emit('j', detail=end)
        self.mark(end)
        if VOID in (arms[0].type, arms[1].type):
            return NOTHING
        kind = common_type(arms[0].type, arms[1].type)
        first, second = (self.convert(arm, kind) for arm in arms)
        return Value(kind, None, result, min(first.low, second.low), max(first.high, second.high))

    def condition(self, node, yes, no, next_label):
        """Goes to yes or no, of which one stands next."""
        if isinstance(node, tree.UnaryOp) and node.op == '!':
            return self.condition(node.expr, no, yes, next_label)
        if isinstance(node, tree.BinaryOp) and node.op in ('&&', '||'):
            middle = self.label('and' if node.op == '&&' else 'or')
            self.condition(node.left, *((middle, no) if node.op == '&&' else (yes, middle)), middle)
            self.mark(middle)
            return self.condition(node.right, yes, no, next_label)
        if isinstance(node, tree.BinaryOp) and node.op in COMPARISONS:
            a = self.wanted(node.left)
            b = self.wanted(node.right)
            kind = common_type(a.type, b.type)
            a, b = self.convert(a, kind), self.convert(b, kind)
            if (a.number is None or b.number is None) and self.decided(node.op, a, b) is None:
                return self.branch(node.op, a, b, (yes, no, next_label))
            value = self.comparison(node.op, a, b)
        else:
            value = self.wanted(node)
        if value.number is None:
            return self.branch('!=', value, Value(INT, 0), (yes, no, next_label))
        target = yes if value.number else no
        return self.emit('j', detail=target) if target != next_label else None

    def branch(self, op, a, b, labels):
        if op in ('>', '<='):
            a, b, op = b, a, '<' if op == '>' else '>='
        signed = a.type.signed
        if signed and b.number == 1 and op in ('<', '>='):          # x < 1 is 0 >= x
            a, b, op = Value(INT, 0), a, '>=' if op == '<' else '<'
        elif signed and a.number == -1 and op in ('<', '>='):       # -1 < x is x >= 0
            a, b, op = b, Value(INT, 0), '>=' if op == '<' else '<'
        name = {'==': 'beq', '!=': 'bne', '<': 'blt' if signed else 'bltu', '>=': 'bge' if signed else 'bgeu'}[op]
        uses, (yes, no, next_label) = (self.register(a), self.register(b)), labels
        if next_label == yes:
            self.emit(INVERSE[name], None, uses, no)
        else:
            self.emit(name, None, uses, yes)
