"""Types of C as the ABI of RV32I has them, what names stand for, values with ranges, operators, and refusals."""
import ast
import collections
import functools
import re

ROWS = {}           # what the preprocessor made of each line, by file and line
MAIN = ['input']    # the file that is translated
ZERO = -1           # the register that is always zero
TASK_PREFIX = 'os_task_'

class Refusal(Exception):
    """A program that is not translated: where, and why."""
    def __init__(self, where, reason):
        super().__init__(f'{place_text(getattr(where, "coord", where))}: error: {reason}')
        self.reason = reason

def refuse_if(is_wrong, where, reason):
    if is_wrong:
        raise Refusal(where, reason)

@functools.lru_cache(None)
def file_lines(path):
    try:
        with open(path, encoding='latin-1') as text:
            return text.read().split('\n')
    except OSError:
        return []

def place_text(spot):
    """file:line:column of a token. Macros move columns: it is the token of the line with as many alike after it."""
    if spot is None:
        return f'{MAIN[0]}:1:1'
    row, column = ROWS.get((spot.file, spot.line), ''), spot.column or 1
    token, lines = re.match(r'\w+|\S', row[column - 1:]), file_lines(spot.file)
    if token and spot.line <= len(lines):
        def columns(text):
            return [m.start() + 1 for m in re.finditer(r'\w+|[^\s\w]', text) if m.group() == token.group()]
        later = sum(1 for c in columns(row) if c > column)
        places = columns(lines[spot.line - 1])
        if later < len(places):
            column = places[-1 - later]
    return f'{spot.file}:{spot.line}:{column}'

class Integer:
    """An integer type: its name, its bytes, and the numbers that it has."""
    def __init__(self, name, size, signed):
        self.name, self.size, self.signed = name, size, signed
        self.low = -(1 << 8 * size - 1) if signed else 0
        self.high = (1 << 8 * size - int(signed)) - 1

    def wrap(self, number):
        return int(number != 0) if self is BOOL else (number - self.low) % (1 << 8 * self.size) + self.low

S8, U8 = Integer('signed char', 1, True), Integer('unsigned char', 1, False)
S16, U16 = Integer('short', 2, True), Integer('unsigned short', 2, False)
INT, UINT = Integer('int', 4, True), Integer('unsigned int', 4, False)
BOOL, VOID = Integer('_Bool', 1, False), Integer('void', 1, False)
BOOL.high = 1
POINTER = 'pointer'
FAMILIES = {'char': (U8, S8, U8), 'short': (S16, S16, U16), 'int': (INT, INT, UINT), 'long': (INT, INT, UINT)}

def named_type(words):
    """The type of words such as `unsigned short int`, or None."""
    signs = [w for w in words if w in ('signed', 'unsigned')]
    rest = [w for w in words if w not in signs]
    if rest == ['void'] or rest == ['_Bool']:
        return None if signs else VOID if rest == ['void'] else BOOL
    if len(rest) == 2 and 'int' in rest:
        rest.remove('int')
    family = FAMILIES.get(rest[0] if rest else 'int') if len(rest) < 2 and len(signs) < 2 and rest + signs else None
    return family and family[0 if not signs else 1 if signs == ['signed'] else 2]

class Value:
    """A number, or a register that holds one; its type, and a range in which it lies."""
    def __init__(self, kind, number=None, register=None, low=None, high=None):
        self.type, self.number, self.register = kind, number, register
        self.low = number if number is not None else kind.low if low is None else low
        self.high = number if number is not None else kind.high if high is None else high

NOTHING = Value(VOID, 0)

def literal(node):
    """The value of a constant's text."""
    text = node.value.lower()
    refuse_if(node.type == 'string' or text.endswith('"'), node, 'strings are left out')
    if "'" in text:
        return Value(INT, character(node))
    if node.type in ('float', 'double', 'long double'):
        raise Refusal(node, 'floating point is left out: use integers of a fixed scale')
    digits = text.rstrip('ul')
    refuse_if('ll' in text, node, '64 bit integers are left out')
    octal = len(digits) > 1 and digits[0] == '0' and digits[1].isdigit()
    try:
        number = int(digits, 8 if octal else 0)
    except ValueError:
        raise Refusal(node, f'{node.value} is no number') from None
    refuse_if(number > UINT.high, node, 'the number has more than 32 bits')
    if number > INT.high and 'u' not in text and digits[0] != '0':
        raise Refusal(node, f'{node.value} is a 64 bit integer in C: write {node.value}U')
    return Value(UINT if 'u' in text or number > INT.high else INT, number)

def character(node):
    try:
        text = ast.literal_eval('b' + node.value)
    except (SyntaxError, ValueError):
        text = b''
    refuse_if(len(text) != 1, node, 'a character constant is one character of ASCII')
    return text[0]

class Struct:
    def __init__(self, fields):
        self.fields = fields        # name, type and lengths of each

    def has_arrays(self):
        return any(lengths or isinstance(kind, Struct) and kind.has_arrays() for _, kind, lengths in self.fields)

# How a variable is kept: its qualifiers, in memory or in a register, and whether the text alone can see it
Form = collections.namedtuple('Form', 'qualifiers is_data is_inner')

class Variable:
    """In memory (symbol, data) or in a register. Its rooms are its lengths, up to powers of two."""
    def __init__(self, name, kind, lengths):
        self.name, self.type, self.lengths = name, kind, lengths
        self.register = self.symbol = self.data = self.path = None
        self.is_const = self.is_volatile = self.is_indexed = self.is_used = False
        self.is_fixed = False       # its initial values are its values
        self.rooms = [1 << max(n - 1, 0).bit_length() for n in lengths]

    def strides(self):
        strides, size = [], self.type.size
        for room in reversed(self.rooms):
            strides.insert(0, size)
            size *= room
        return strides

    def size(self):
        """The bytes of its symbol: of its rooms only where an index is no constant."""
        if not self.lengths:
            return self.type.size
        return self.strides()[0] * (self.rooms if self.is_indexed else self.lengths)[0]

    def offsets(self):
        """Of all elements, in order."""
        offsets = [0]
        for length, stride in zip(self.lengths, self.strides()):
            offsets = [at + k * stride for at in offsets for k in range(length)]
        return offsets

    def leaves(self):
        return [self]

class Group:
    """A variable of a structure: one of each field. So an array of structures is a structure of arrays."""
    def __init__(self, kind, lengths, fields):
        self.type, self.lengths, self.fields = kind, lengths, fields

    def leaves(self):
        return [leaf for f in self.fields.values() for leaf in f.leaves()]

class Object:
    """A task, resource, event or alarm of the configuration, by its name."""
    def __init__(self, name, kind):
        self.name, self.kind = name, kind

class Function:
    def __init__(self, name, result, parameters, node):
        self.name, self.result, self.parameters, self.node = name, result, parameters, node
        self.is_task = bool(node) and node.decl.name.startswith(TASK_PREFIX)
        self.calls, self.tasks = {}, set()
        self.steps, self.frame, self.changed, self.weight, self.sites, self.is_inline = None, 0, 0, 0, 0, False

def promoted(kind):
    return INT if kind.size < 4 else kind

def common_type(a, b):
    return UINT if UINT in (promoted(a), promoted(b)) else INT

def is_short(number):
    """Whether an instruction has room for the number."""
    return number is not None and -2048 <= number <= 2047

class Arithmetic:
    """Operators: of numbers at once, else by steps. `step` makes one and tells its register, `register` holds a value,
    `routine` calls a function of the translator's own."""
    COMPARED = {'==': lambda a, b: a == b, '!=': lambda a, b: a != b, '<': lambda a, b: a < b, '>': lambda a, b: a > b,
                '<=': lambda a, b: a <= b, '>=': lambda a, b: a >= b}
    FOLDED = {'+': lambda a, b: a + b, '-': lambda a, b: a - b, '*': lambda a, b: a * b, '&': lambda a, b: a & b,
              '|': lambda a, b: a | b, '^': lambda a, b: a ^ b}

    def convert(self, value, kind):
        if kind is VOID or value.type is kind:
            return value
        if not isinstance(kind, Integer) or not isinstance(value.type, Integer):
            raise Refusal(self.spot, 'structures are set field by field')
        refuse_if(value.type is VOID, self.spot, 'a value is wanted here')
        if value.number is not None:
            return Value(kind, kind.wrap(value.number))
        if kind.low <= value.low and value.high <= kind.high:
            return Value(kind, None, value.register, value.low, value.high)
        if kind is BOOL:
            return Value(kind, None, self.step('sltu', ZERO, value.register))
        if kind.size == 4:
            return Value(kind, None, value.register)
        if kind is U8:
            return Value(kind, None, self.step('andi', value.register, detail=255))
        shift = 32 - 8 * kind.size
        upper = self.step('slli', value.register, detail=shift)
        return Value(kind, None, self.step('srai' if kind.signed else 'srli', upper, detail=shift))

    def ranged(self, kind, register, low, high):
        """A value in a register, whose range is known where the sum stays in its type."""
        fits = kind.low <= low and high <= kind.high
        return Value(kind, None, register, low, high) if fits else Value(kind, None, register)

    def binary(self, op, a, b, node):
        refuse_if(VOID in (a.type, b.type), node, 'a value is wanted here')
        if op in ('<<', '>>'):
            return self.shift(op, self.convert(a, promoted(a.type)), b, node)
        kind = common_type(a.type, b.type)
        a, b = self.convert(a, kind), self.convert(b, kind)
        if op in self.COMPARED:
            return self.comparison(op, a, b)
        refuse_if(op in '/%' and b.number == 0, node, 'division by zero')
        if a.number is not None and b.number is not None:
            if op not in '/%':
                return Value(kind, kind.wrap(self.FOLDED[op](a.number, b.number)))
            quotient = abs(a.number) // abs(b.number) * (1 if (a.number < 0) == (b.number < 0) else -1)
            return Value(kind, kind.wrap(quotient if op == '/' else a.number - quotient * b.number))
        if op in '+*&|^' and a.number is not None:
            a, b = b, a
        if op in '+-':
            return self.total(op, kind, a, b)
        if op == '*':
            return self.product(kind, a, b)
        return self.quotient(op, kind, a, b) if op in '/%' else self.bitwise(op, kind, a, b)

    def total(self, op, kind, a, b):
        span = (a.low + b.low, a.high + b.high) if op == '+' else (a.low - b.high, a.high - b.low)
        number = None if b.number is None else INT.wrap(-b.number if op == '-' else b.number)
        if number == 0:
            return a
        if is_short(number):
            return self.ranged(kind, self.step('addi', a.register, detail=number), *span)
        return self.ranged(kind, self.step('add' if op == '+' else 'sub', self.register(a), self.register(b)), *span)

    def bitwise(self, op, kind, a, b):
        span = (kind.low, kind.high)
        if op == '&' and (a.low >= 0 or b.low >= 0):
            span = (0, min(v.high for v in (a, b) if v.low >= 0))
        elif a.low >= 0 and b.low >= 0:
            span = (0, (1 << max(a.high, b.high).bit_length()) - 1)
        names = {'&': ('and', 'andi'), '|': ('or', 'ori'), '^': ('xor', 'xori')}[op]
        if b.number is None:
            return self.ranged(kind, self.step(names[0], a.register, b.register), *span)
        mask = INT.wrap(b.number)
        if mask == (-1 if op == '&' else 0):
            return a
        if op == '&' and mask > 2047 and mask & mask + 1 == 0:
            shift = 32 - mask.bit_length()
            upper = self.step('slli', a.register, detail=shift)
            return self.ranged(kind, self.step('srli', upper, detail=shift), *span)
        if is_short(mask):
            return self.ranged(kind, self.step(names[1], a.register, detail=mask), *span)
        return self.ranged(kind, self.step(names[0], a.register, self.register(b)), *span)

    def shift(self, op, a, b, node):
        kind = a.type
        if b.number is None:
            if op == '<<':
                return Value(kind, None, self.step('sll', self.register(a), b.register))
            right = self.step('sra' if a.low < 0 else 'srl', self.register(a), b.register)
            return Value(kind, None, right, min(a.low, 0), max(a.high, 0))
        refuse_if(not 0 <= b.number <= 31, node, f'a shift by {b.number} of 32 bits')
        if a.number is not None:
            return Value(kind, kind.wrap(a.number << b.number if op == '<<' else a.number >> b.number))
        if b.number == 0:
            return a
        if op == '<<':
            left = self.step('slli', a.register, detail=b.number)
            return self.ranged(kind, left, a.low << b.number, a.high << b.number)
        right = self.step('srai' if a.low < 0 else 'srli', a.register, detail=b.number)
        return Value(kind, None, right, a.low >> b.number, a.high >> b.number)

    def product(self, kind, a, b):
        """By a number sums and differences of shifts, in the form with the fewest digits of 1 and -1."""
        corners = [x * y for x in (a.low, a.high) for y in (b.low, b.high)]
        span = min(corners), max(corners)
        if b.number is None:
            return self.ranged(kind, self.routine('__mul', a, b)[0], *span)
        digits, rest, place, sum_so_far = [], INT.wrap(b.number), 0, None
        while rest and place < 32:
            if rest & 1:
                digit = 2 - (rest & 3)
                digits.append((digit, place))
                rest -= digit
            rest, place = rest >> 1, place + 1
        for digit, place in sorted(digits, key=lambda d: -d[0]):
            part = self.step('slli', a.register, detail=place) if place else a.register
            if sum_so_far is None:
                sum_so_far = part if digit > 0 else self.step('sub', ZERO, part)
            else:
                sum_so_far = self.step('add' if digit > 0 else 'sub', sum_so_far, part)
        return Value(kind, 0) if sum_so_far is None else self.ranged(kind, sum_so_far, *span)

    def quotient(self, op, kind, a, b):
        number, positive = b.number, a.low >= 0 and b.low >= 0
        if number is not None and number > 0 and number & number - 1 == 0:
            return self.power_quotient(op, kind, a, number)
        found = self.routine('__divu' if positive else '__div', a, b)[0 if op == '/' else 1]
        if not positive or b.low == 0:
            return Value(kind, None, found)
        return Value(kind, None, found, 0, a.high // b.low if op == '/' else min(a.high, b.high - 1))

    def power_quotient(self, op, kind, a, number):
        """Shifts and masks: towards zero, so a negative dividend grows first."""
        shift = number.bit_length() - 1
        if shift == 0:
            return a if op == '/' else Value(kind, 0)
        if a.low >= 0 and op == '/':
            return Value(kind, None, self.step('srli', a.register, detail=shift), a.low >> shift, a.high >> shift)
        if a.low >= 0:
            return self.binary('&', a, Value(kind, number - 1), None)
        sign = self.step('srai', a.register, detail=31) if shift > 1 else a.register
        bias = self.step('srli', sign, detail=32 - shift)
        raised = Value(kind, None, self.step('add', a.register, bias))
        if op == '/':
            return Value(kind, None, self.step('srai', raised.register, detail=shift))
        low = self.binary('&', raised, Value(kind, number - 1), None)
        return Value(kind, None, self.step('sub', low.register, bias), 1 - number, number - 1)

    def decided(self, op, a, b):
        """What the ranges say of a comparison, or None."""
        if op in ('>', '<='):
            a, b, op = b, a, '<' if op == '>' else '>='
        if op in ('<', '>='):
            return int(op == '<') if a.high < b.low else int(op == '>=') if a.low >= b.high else None
        return int(op == '!=') if a.high < b.low or b.high < a.low else None

    def comparison(self, op, a, b):
        if a.number is not None and b.number is not None:
            return Value(INT, int(self.COMPARED[op](a.number, b.number)))
        known = self.decided(op, a, b)
        if known is not None:
            return Value(INT, known)
        if op in ('==', '!='):
            return self.equality(op, *((b, a) if a.number is not None else (a, b)))
        less = 'slt' if a.type.signed else 'sltu'
        if op in ('>', '<='):
            a, b = b, a
        if a.number is None and is_short(b.number):
            found = self.step({'slt': 'slti', 'sltu': 'sltiu'}[less], a.register, detail=b.number)
        else:
            found = self.step(less, self.register(a), self.register(b))
        return Value(INT, None, self.step('xori', found, detail=1) if op in ('>=', '<=') else found, 0, 1)

    def equality(self, op, a, b):
        if b.number == 0:
            apart = a.register
        elif is_short(b.number):
            apart = self.step('xori', a.register, detail=b.number)
        else:
            apart = self.step('xor', a.register, self.register(b))
        found = self.step('sltiu', apart, detail=1) if op == '==' else self.step('sltu', ZERO, apart)
        return Value(INT, None, found, 0, 1)
