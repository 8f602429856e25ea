"""Random programs of C that leave nothing undefined."""
import random

TYPES = ['int8_t', 'uint8_t', 'int16_t', 'uint16_t', 'int32_t', 'uint32_t', 'bool', 'char', 'int']
EDGES = '''0 1 2 -1 -2 7 10 100 127 128 -128 -129 255 256 1000 2047 2048 -2048 -2049 32767 32768 -32768 65535 65536
    0x7fffffff 0x80000000U 0xffffffffU (-2147483647-1) 3000000000U 'z' '''.split()
DIVISORS = '2 4 8U 1 16 1024 3 10 7U -5 65536 0x40000000'.split()

class Program:
    def __init__(self, seed):
        self.random, self.rows, self.names, self.rounds = random.Random(seed), [], 0, 1
        self.scalars, self.arrays, self.functions, self.counters = [], [], [], []
        self.row(0, '#include "os.h"\n#include <stdint.h>\n#include <stdbool.h>')
        self.declare_data()
        for _ in range(self.random.randrange(5)):
            self.function()
        self.row(0, 'TASK(Main) {')
        self.body(1, self.random.randrange(4, 12), 3, '')
        self.row(0, '  TerminateTask();\n}\n')
        self.text = '\n'.join(self.rows)

    def row(self, depth, text):
        self.rows.append('  ' * depth + text)

    def name(self, letter):
        self.names += 1
        return f'{letter}{self.names}'

    def pick(self, *ways):
        return self.random.choice(ways)

    def number(self):
        return self.pick(self.random.choice(EDGES), self.random.choice(EDGES), str(self.random.randrange(-50, 400)),
                         f'{self.random.randrange(1 << 32):#x}U')

    def declare_data(self):
        for _ in range(self.random.randrange(3, 7)):
            self.scalars.append(self.name('g'))
            kind = self.pick('', 'static ', 'volatile ') + self.pick(*TYPES)
            self.row(0, f'{kind} {self.scalars[-1]} = {self.number()};')
        for k in range(self.random.randrange(1, 5)):
            const = k > 0 and self.pick(0, 0, 1)
            lengths = self.random.choices((1, 2, 4, 5, 8, 10, 16), k=self.pick(1, 1, 2))
            first = ', '.join(self.number() for _ in range(lengths[0]))
            start = f'{{{first}}}' if len(lengths) == 1 else f'{{[{lengths[0] - 1}] = {{{self.number()}}}}}'
            self.arrays.append((self.name('a'), lengths, '', const))
            brackets = ''.join(f'[{n}]' for n in lengths)
            self.row(0, f'{"const " * const}{self.pick(*TYPES)} {self.arrays[-1][0]}{brackets} = {start};')
        name, length, fields = self.name('s'), self.pick(2, 3, 4), ' '.join(f'{self.pick(*TYPES)} {f};' for f in 'xyz')
        self.row(0, f'struct {{ {fields} }} {name}[{length}] = {{{{1, -2, 300}}, {{.z = 70000, .x = -1}}}};')
        self.arrays += [(name, [length], '.' + f, False) for f in 'xyz']

    def element(self, array, depth):
        def index(length):
            inner = self.expression(depth - 1)
            masked = f'({inner}) & {length - 1}' if length & length - 1 == 0 else f'(uint32_t)({inner}) % {length}U'
            return self.pick(str(self.random.randrange(length)), masked, masked)
        return array[0] + ''.join(f'[{index(n)}]' for n in array[1]) + array[2]

    def place(self, depth):
        arrays = [a for a in self.arrays if not a[3]]
        if arrays and self.pick(0, 0, 1):
            return self.element(self.random.choice(arrays), depth)
        return self.random.choice(self.scalars)

    def call(self, depth, pure):
        functions = [f for f in self.functions if f[2] or not pure]
        if not functions:
            return self.random.choice(self.scalars)
        name, count, _ = self.random.choice(functions)
        return f'{name}({", ".join(self.expression(depth) for _ in range(count))})'

    def expression(self, depth):
        chance, readable = self.random.random(), self.scalars + self.counters
        if depth <= 0 or chance < .12:
            return self.pick(self.number(), self.random.choice(readable), self.random.choice(readable[-3:]))
        a, b = self.expression(depth - 1), self.expression(depth - 1)
        if chance < .2 and self.arrays:
            return self.element(self.random.choice(self.arrays), depth)
        if chance < .48:
            return f'({a} {self.pick(*"+-*&|^")} {b})'
        if chance < .56:
            return f'({a} {self.pick("<<", ">>")} {self.pick(str(self.random.randrange(32)), f"({b} & 31)")})'
        if chance < .64:
            op, by = self.pick(*'/%'), self.random.choice(DIVISORS)
            return self.pick(f'((uint32_t){a} {op} ((uint32_t){b} | 1U))', f'((int32_t){a} {op} (({b} & 127) + 2))',
                             f'((int32_t){a} {op} -(({b} & 127) + 2))', f'({a} {op} {by})')
        if chance < .8:
            return f'({a} {self.pick("==", "!=", "<", ">", "<=", ">=", "&&", "||")} {b})'
        if chance < .88:
            return self.pick(f'({self.pick(*"-~!+")} {a})', f'(({self.pick(*TYPES)}){a})')
        return self.call(depth - 2, True) if chance < .94 else f'({self.expression(depth - 1)} ? {a} : {b})'

    def function(self):
        """One that is pure may stand in expressions: it sees constant arrays and its own names alone."""
        name, pure, outer = self.name('f'), self.pick(0, 1, 1), (self.scalars, self.arrays, self.functions)
        parameters, local = [self.name('p') for _ in range(self.random.randrange(9))], self.name('v')
        head = ', '.join(f'{self.pick(*TYPES)} {p}' for p in parameters) or 'void'
        self.row(0, f'{self.pick("", "static ")}{self.pick(*TYPES)} {name}({head}) {{')
        self.row(1, f'{self.pick(*TYPES)} {local} = {self.number()};')
        self.scalars = parameters + [local] + ([] if pure else self.scalars)
        if pure:
            self.arrays, self.functions = [a for a in self.arrays if a[3]], [f for f in self.functions if f[2]]
        self.body(1, self.random.randrange(1, 5), 2, 'function')
        self.row(1, f'return {self.expression(2)};\n}}')
        self.scalars, self.arrays, self.functions = outer
        self.functions.append((name, len(parameters), pure))

    def body(self, depth, count, nest, inside):
        kept = list(self.scalars)
        for _ in range(self.random.randrange(3) if nest > 0 else 0):
            name, start = self.name('v'), self.expression(2)
            self.row(depth, f'{self.pick(*TYPES)} {name} = {start};')
            self.scalars.append(name)
        for _ in range(count):
            self.statement(depth, nest, inside)
        self.scalars[:] = kept

    def statement(self, depth, nest, inside):
        """A statement with blocks of its own, or a plain one."""
        chance, scalar = self.random.random(), self.random.choice(self.scalars)
        if chance < .4 and nest > 0:
            self.block(depth, nest, inside)
        elif chance < .48 and 'loop' in inside:
            self.row(depth, f'if ({self.expression(2)}) {self.pick("break", "continue")};')
        elif chance < .52 and 'function' in inside:
            self.row(depth, f'if ({self.expression(2)}) return {self.expression(2)};')
        elif chance < .6:
            self.row(depth, f'{scalar} = {self.call(2, False)};')
        elif chance < .7:
            form = self.pick('{0}++;', '--{0};', '{0} <<= {1};', '{0} >>= {1};', '{2} = {0}++;', '{0} %= {3};')
            self.row(depth, form.format(self.place(1), self.random.randrange(8), scalar, self.random.choice(DIVISORS)))
        else:
            op = self.pick('=', '=', '=', '+=', '-=', '&=', '|=', '^=', '*=')
            self.row(depth, f'{self.place(2)} {op} {self.expression(3)};')

    def block(self, depth, nest, inside):
        form = self.random.randrange(9)
        if form < 4 or form < 6 and self.rounds > 64:
            self.row(depth, f'if ({self.expression(3)}) {{')
            self.body(depth + 1, self.random.randrange(1, 4), nest - 1, inside)
            if form % 2:
                self.row(depth, '} else {')
                self.body(depth + 1, self.random.randrange(1, 4), nest - 1, inside)
            self.row(depth, '}')
        elif form < 7:
            self.loop(depth, nest, inside)
        else:
            self.row(depth, f'switch ({self.expression(2)} & {self.pick(3, 7, 15)}) {{')
            for number in self.random.sample(range(16), self.random.randrange(1, 8)) + ['default'] * (form % 2):
                self.row(depth, f'case {number}:' if number != 'default' else 'default:')
                self.body(depth + 1, self.random.randrange(1, 3), 0, inside)
                self.row(depth + 1, self.pick('break;', 'break;', ';'))
            self.row(depth, '}')

    def loop(self, depth, nest, inside):
        name, count, form = self.name('i'), self.random.randrange(1, 9), self.random.randrange(4)
        self.rounds *= count
        self.row(depth, [
            f'for (int {name} = 0; {name} < {count}; {name}++) {{', f'{{ int {name} = {count}; while ({name}-- > 0) {{',
            f'for (uint8_t {name} = {count}; {name} > 0; --{name}) {{', f'{{ int {name} = 0; do {{'][form])
        self.counters.append(name)
        self.body(depth + 1, self.random.randrange(1, 4), nest - 1, inside + 'loop')
        self.counters.remove(name)
        self.row(depth, ['}', '} }', '}', f'}} while (++{name} < {count}); }}'][form])
        self.rounds //= count
