"""Registers for the values of a body, by colouring; what finds none goes to a word of the frame."""
from passes import FIRST, Step, liveness, sweep, tidy
from values import Refusal

REAL = (1 << FIRST) - 1
WORDS = 32      # that a frame may have

def numbers(bits):
    """The numbers of the bits that are set."""
    while bits:
        low = bits & -bits
        yield low.bit_length() - 1
        bits ^= low

class Colouring:
    """One try: which values meet, which share a register as copies of each other, and a register for each."""
    def __init__(self, steps, count, fixed):
        self.steps, self.fixed = steps, fixed
        self.near, self.cost, self.moves, self.makers = [0] * count, {}, [], {}
        self.name = list(range(count))
        self.colour, self.spilled = {}, []
        self.read_steps()
        self.join_copies()
        self.fill(self.order())

    def root(self, register):
        while self.name[register] != register:
            register = self.name[register]
        return register

    def read_steps(self):
        near, after = self.near, liveness(self.steps)
        for k, s in enumerate(self.steps):
            copied = s.uses[0] if s.op == 'mv' and s.uses[0] >= 0 else None
            for r in ([s.result] if s.result is not None else []) + list(numbers(s.changes)):
                meets = after[k] & ~(1 << r)
                if copied is not None:
                    meets &= ~(1 << copied)
                near[r] |= meets | s.changes & ~(1 << r)
            if s.result is not None:
                self.makers.setdefault(s.result, []).append(s)
            if copied is not None:
                self.moves.append((s.depth, s.result, copied))
            for r in set(s.uses) | {s.result}:
                if r is not None and r >= FIRST:
                    self.cost[r] = self.cost.get(r, 0) + 10 ** min(s.depth, 6)
        for r in range(len(near)):
            for other in numbers(near[r]):
                near[other] |= 1 << r
        for r in range(FIRST):
            near[r] |= REAL & ~(1 << r)

    def join_copies(self):
        """Copies of values that do not meet share a register, where that leaves room for others."""
        for _, a, b in sorted(self.moves, key=lambda move: -move[0]):
            a, b = self.root(a), self.root(b)
            if a == b or a < FIRST or b < FIRST or self.near[a] >> b & 1:
                continue
            union = self.near[a] | self.near[b]
            if bin(union).count('1') >= FIRST + 12:
                continue
            self.name[b] = a
            self.near[a] = union
            for other in numbers(self.near[b]):
                self.near[other] = self.near[other] & ~(1 << b) | 1 << a
            self.cost[a] = self.cost.get(a, 0) + self.cost.get(b, 0)
            self.makers.setdefault(a, []).extend(self.makers.get(b, []))
            if b in self.fixed:
                self.fixed.add(a)

    def order(self):
        """The values, those last that are sure of a register, or cheapest to lack one."""
        todo = {r for r in self.cost if self.root(r) == r}
        left = sum(1 << r for r in todo)
        degree = {r: bin(self.near[r] & (left | REAL)).count('1') for r in todo}
        stack = []
        while todo:
            sure = [r for r in todo if degree[r] < FIRST]
            if sure:
                r = min(sure, key=lambda r: (self.cost[r], r))
            else:
                r = min(todo, key=lambda r: (r in self.fixed, self.cost[r] / (degree[r] + 1), r))
            todo.discard(r)
            stack.append(r)
            left &= ~(1 << r)
            for other in numbers(self.near[r] & left):
                degree[other] -= 1
        return reversed(stack)

    def fill(self, order):
        wishes = {}
        for _, a, b in self.moves:
            a, b = (r if r < FIRST else self.root(r) for r in (a, b))
            wishes.setdefault(a, []).append(b)
            wishes.setdefault(b, []).append(a)
        for r in order:
            taken = self.near[r] & REAL
            for other in numbers(self.near[r] >> FIRST << FIRST):
                if other in self.colour:
                    taken |= 1 << self.colour[other]
            free = [c for c in range(FIRST) if not taken >> c & 1]
            if not free:
                self.spilled.append(r)
                continue
            wanted = (w if w < FIRST else self.colour.get(w) for w in wishes.get(r, []))
            self.colour[r] = next((c for c in wanted if c in free), free[0])

    def real(self, register):
        return register if register is None or register < FIRST else self.colour[self.root(register)]

def too_much(function):
    return Refusal(function.node, f'{function.name} keeps too much at once: {FIRST} registers and {WORDS} words of its '
                   'frame are not enough')

class Frame:
    """The words of a body's frame, one for each value without a register at first."""
    def __init__(self, function, fresh):
        self.function, self.fresh = function, fresh
        self.words, self.fixed = {}, set()

    def spill(self, steps, colouring, root):
        """Loads the value in front of each use, stores it after each definition; a constant is made anew instead."""
        makers = colouring.makers.get(root, [])
        again = makers[0] if len(makers) == 1 and makers[0].op == 'li' else None
        if root in self.fixed and not again:
            raise too_much(self.function)
        if not again:
            self.words[root] = len(self.words)
        group = {r for r in range(FIRST, len(colouring.name)) if colouring.root(r) == root}
        out = []
        for s in steps:
            if s is again:
                continue
            if any(r in group for r in s.uses):
                near = self.short()
                detail = ('li', again.detail) if again else ('lw', (None, self.words[root]))
                out.append(Step(detail[0], near, (), detail[1], s.spot, s.depth))
                s.uses = tuple(near if r in group else r for r in s.uses)
            out.append(s)
            if s.result in group:
                s.result = self.short()
                out.append(Step('sw', None, (s.result,), (None, self.words[root]), s.spot, s.depth))
        steps[:] = out

    def short(self):
        """A value that lives so shortly that it gets a register."""
        register = self.fresh()
        self.fixed.add(register)
        return register

    def share(self, steps):
        """One word for values that do not live at one time; how many words there are."""
        def is_word(s, op):
            return s.op == op and s.detail[0] is None
        marked = [s for s in steps if is_word(s, 'lw') or is_word(s, 'sw')]
        copy = []
        for s in steps:
            result, uses = s.detail[1] if is_word(s, 'sw') else None, (s.detail[1],) if is_word(s, 'lw') else ()
            copy.append(Step(s.op, result, uses, s.detail))
        near, words = {s.detail[1]: 0 for s in marked}, {}
        for s, after in zip(steps, liveness(copy)):
            if is_word(s, 'sw'):
                near[s.detail[1]] |= after
        for a in sorted(near):
            taken = {w for b, w in words.items() if near[a] >> b & 1 or near[b] >> a & 1}
            words[a] = next(w for w in range(len(near) + 1) if w not in taken)
        for s in marked:
            s.detail = (None, words[s.detail[1]])
        count = max(words.values(), default=-1) + 1
        if count > WORDS:
            raise too_much(self.function)
        return count

def allocate(steps, function, fresh, last):
    """The steps with real registers, the words of the frame, and the registers that are changed, as bits."""
    frame = Frame(function, fresh)
    while True:
        sweep(steps)
        steps[:] = tidy(steps)
        colouring = Colouring(steps, last() + 1, frame.fixed)
        if not colouring.spilled:
            break
        for root in colouring.spilled:
            frame.spill(steps, colouring, root)
    changed = 0
    for s in steps:
        s.result, s.uses = colouring.real(s.result), tuple(colouring.real(r) for r in s.uses)
        changed |= s.changes | (1 << s.result if s.result is not None else 0)
    steps = tidy([s for s in steps if not (s.op == 'mv' and s.result == s.uses[0])])
    return steps, frame.share(steps), changed
