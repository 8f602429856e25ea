"""Steps, the instructions of a body before they are text, and passes that leave fewer. Loads and stores stay in order.
Registers are -1 for zero, 0 to 24 for those of task code, then values of which each gets one of these."""
import collections

from values import INT, ZERO, is_short

NAMES = 't0 t1 t2 a7 a6 a5 a4 a3 a2 a1 a0 t3 t4 s2 s3 s4 s5 s6 s7 s8 s9 s10 s11 s0 s1 zero'.split()
ARGUMENTS = [NAMES.index(f'a{k}') for k in range(8)]
FIRST = len(NAMES) - 1  # the first value
SUMS = {'add', 'sub', 'sll', 'slt', 'sltu', 'xor', 'srl', 'sra', 'or', 'and'}
SHORT_SUMS = {'addi', 'slti', 'sltiu', 'xori', 'ori', 'andi', 'slli', 'srli', 'srai'}
PURE = SUMS | SHORT_SUMS | {'li', 'mv'}
LOADS, STORES = {'lw', 'lb', 'lh', 'lbu', 'lhu'}, {'sw', 'sb', 'sh'}
INVERSE = {'beq': 'bne', 'bne': 'beq', 'blt': 'bge', 'bge': 'blt', 'bltu': 'bgeu', 'bgeu': 'bltu'}
MARKERS = {'loop', 'endloop'}

class Step:
    """What it defines and uses; detail is of a jump its label; its place in C; how many loops it stands in."""
    def __init__(self, op, result=None, uses=(), detail=None, spot=None, depth=0):
        self.op, self.result, self.uses, self.detail = op, result, tuple(uses), detail
        self.spot, self.depth = spot, depth
        self.changes = 0        # further registers that it changes, as bits
        self.held = ()          # the resources that are held at it

    def targets(self):
        return [self.detail] if self.op in INVERSE or self.op == 'j' else []

    def is_end(self):
        return self.op in ('j', 'ret') or self.op == 'service' and self.detail[0] == 'TerminateTask'

    def changed(self):
        """The real registers that it changes besides its result, with the result."""
        return {self.result} | {r for r in range(FIRST) if self.changes >> r & 1}

def label_places(steps):
    return {s.detail: k for k, s in enumerate(steps) if s.op == 'label'}

def thread(steps):
    """A jump to a jump goes to where that one goes; into a loop its marker leads alone, for the sake of bounds."""
    places = label_places(steps)

    def last(label, seen):
        k = places[label]
        while k < len(steps) and steps[k].op in ('label', 'endloop'):
            k += 1
        further = k < len(steps) and steps[k].op == 'j' and steps[k].detail not in seen
        return last(steps[k].detail, seen | {label}) if further else label
    for s in steps:
        if s.targets():
            s.detail = last(s.detail, {s.detail})

def reached(steps):
    """The numbers of the steps that some way from the first one leads to."""
    places, seen, todo = label_places(steps), set(), [0]
    while todo:
        k = todo.pop()
        while k < len(steps) and k not in seen:
            seen.add(k)
            todo += [places[t] for t in steps[k].targets()]
            if steps[k].is_end():
                break
            k += 1
    return seen

def stands_next(steps, k, label):
    """Whether nothing but labels stands from k to the label."""
    while k < len(steps) and (steps[k].op == 'label' or steps[k].op in MARKERS):
        if steps[k].op == 'label' and steps[k].detail == label:
            return True
        k += 1
    return False

def is_over_jump(steps, k):
    """The number of a jump that the branch at k passes over, and nothing else, or None."""
    n = k + 1
    while n < len(steps) and steps[n].op == 'endloop':
        n += 1
    return n if n < len(steps) and steps[n].op == 'j' and stands_next(steps, n + 1, steps[k].detail) else None

def tidy(steps):
    """The steps without what is never reached, jumps to what stands next, and labels that nothing names."""
    while True:
        thread(steps)
        seen, length = reached(steps), len(steps)
        steps = [s for k, s in enumerate(steps) if k in seen or s.op in MARKERS]
        named = {t for s in steps for t in s.targets()}
        steps = [s for s in steps if s.op != 'label' or s.detail in named]
        gone = set()
        for k, s in enumerate(steps):
            over = is_over_jump(steps, k) if s.op in INVERSE else None
            if s.targets() and k not in gone and stands_next(steps, k + 1, s.detail):
                gone.add(k)
            elif over is not None:
                s.op, s.detail = INVERSE[s.op], steps[over].detail
                gone.add(over)
        steps = [s for k, s in enumerate(steps) if k not in gone]
        if len(steps) == length:
            return steps

def liveness(steps):
    """For each step the registers that live after it, as bits."""
    rows = []
    for s in steps:
        uses = 0
        for r in s.uses:
            uses |= 1 << r if r >= 0 else 0
        changes = s.changes | (1 << s.result if s.result is not None else 0)
        rows.append((uses, changes, s.is_end(), (s.targets() or [None])[0], s.detail if s.op == 'label' else None))
    labels, after, moves = {}, [0] * len(steps), True
    while moves:
        moves, live = False, 0
        for k in range(len(steps) - 1, -1, -1):
            uses, kills, ends, target, label = rows[k]
            if ends:
                live = 0
            if target is not None:
                live |= labels.get(target, 0)
            after[k] = live
            live = live & ~kills | uses
            if label is not None and labels.get(label, 0) != live:
                labels[label] = live
                moves = True
    return after

def improve(steps):
    share_sums(steps)
    hoist(steps)
    share_sums(steps)
    sweep(steps)

def share_sums(steps):
    """Of equal sums in one straight piece the first alone."""
    known = {}
    for s in steps:
        if s.op in ('label', 'loop'):
            known = {}
        is_sum = s.op in PURE and s.op != 'mv' and not (s.op == 'li' and is_short(INT.wrap(s.detail)))
        key = (s.op, s.uses, s.detail) if is_sum and s.result >= FIRST else None
        if key in known:
            s.op, s.uses, s.detail = 'mv', (known[key],), None
        if s.result is not None or s.changes:
            hit = s.changed()
            known = {k: r for k, r in known.items() if r not in hit and not hit.intersection(k[1])}
        if key and s.op != 'mv' and s.result not in s.uses and all(r >= FIRST or r == ZERO for r in s.uses):
            known[key] = s.result

def is_idle(step, live):
    """Whether nothing uses what the step gives, and it does nothing else."""
    if step.op == 'mv' and step.result == step.uses[0]:
        return True
    if step.result is None or live >> step.result & 1:
        return False
    return step.op in PURE or step.op in LOADS and not getattr(step.detail[0], 'is_volatile', False)

def sweep(steps):
    """Takes away steps whose value nothing uses."""
    while True:
        after = liveness(steps)
        kept = [s for k, s in enumerate(steps) if not is_idle(s, after[k])]
        if len(kept) == len(steps):
            return
        steps[:] = kept

def loop_end(steps, k):
    """The number after the `endloop` of the loop that begins at k."""
    level = 0
    while True:
        level += {'loop': 1, 'endloop': -1}.get(steps[k].op, 0)
        k += 1
        if level == 0:
            return k

def hoist(steps):
    """Sums that a loop does not change come in front of it, inner loops first; no more than registers have room for."""
    count = collections.Counter(s.result for s in steps)
    for k in range(len(steps) - 1, -1, -1):
        if steps[k].op != 'loop':
            continue
        body = steps[k:loop_end(steps, k)]
        changed = {s.result for s in body if s.result is not None}
        room = 14 - sum(1 for s in body if s.op == 'label') // 4
        front, more = [], True
        while more:
            more = False
            for s in body:
                if len(front) < room and s not in front and s.op in PURE and s.op != 'mv' and s.result >= FIRST \
                        and count[s.result] == 1 and all(r == ZERO or r >= FIRST and r not in changed for r in s.uses):
                    front.append(s)
                    changed.discard(s.result)
                    more = True
        for s in front:
            s.depth = steps[k].depth
        steps[k:k + len(body)] = front + [s for s in body if s not in front]
