"""The text of task code, with lines of C as comments above their items, and the table of its places in C."""
import collections
import os
import re

from passes import INVERSE, LOADS, NAMES, SHORT_SUMS, STORES, SUMS, MARKERS, label_places
from values import INT, file_lines, is_short, place_text

# A function of the translator's own: what it calls, the registers that it changes, its instructions at most
Routine = collections.namedtuple('Routine', 'text calls changes counts')
ROUTINES = {}

def read_routines(path):
    with open(path, encoding='ascii') as file:
        for text in file.read().split('\nfunc ')[1:]:
            calls = re.findall(r'call (\w+)', text)
            changed = set(re.findall(r'^  (?!b|call)\w+ (\w+),', text, re.M))
            changed = changed.union(*(ROUTINES[c].changes for c in calls))
            counts = int(re.search(r'# (\d+):', text).group(1))
            ROUTINES[text.split()[0]] = Routine('func ' + text.strip(), calls, changed, counts)

read_routines(os.path.join(os.path.dirname(os.path.abspath(__file__)), 'routines.src'))

def item_text(s):
    uses = [NAMES[r] for r in s.uses]
    if s.op in SUMS:
        return f'{s.op} {NAMES[s.result]}, {uses[0]}, {uses[1]}'
    if s.op in SHORT_SUMS:
        return f'{s.op} {NAMES[s.result]}, {uses[0]}, {s.detail}'
    if s.op == 'mv':
        return f'mv {NAMES[s.result]}, {uses[0]}'
    if s.op == 'li':
        number = INT.wrap(s.detail)
        if is_short(number):
            return f'addi {NAMES[s.result]}, zero, {number}'
        op, number = ('li', number) if number & 0xfff else ('lui', number >> 12 & 0xfffff)
        return f'{op} {NAMES[s.result]}, {number}'
    if s.op in LOADS:
        return f'{s.op} {NAMES[s.result]}, {place(s.detail, uses)}'
    if s.op in STORES:
        return f'{s.op} {uses[0]}, {place(s.detail, uses[1:])}'
    if s.op in INVERSE:
        return f'{s.op} {uses[0]}, {uses[1]}, {s.detail}'
    if s.op == 'service':
        return ' '.join([s.detail[0], ', '.join(s.detail[1])]).strip()
    return s.op if s.op == 'ret' else f'{s.op} {s.detail}'

def place(detail, index):
    variable, offset = detail
    if variable is None:
        return f'frame[{offset}]'
    if index:
        return f'{variable.symbol}[{index[0]} & {len(variable.data) - variable.type.size}]'
    return f'{variable.symbol}+{offset}' if offset else variable.symbol

def hold(steps):
    """Sets what is held at each step, by the first way that leads to it."""
    places, seen, todo = label_places(steps), set(), [(0, ())]
    while todo:
        k, held = todo.pop()
        while k < len(steps) and k not in seen:
            s = steps[k]
            seen.add(k)
            s.held = held
            if s.op == 'service' and s.detail[0] == 'GetResource':
                held += (s.detail[1][0],)
            elif s.op == 'service' and s.detail[0] == 'ReleaseResource':
                held = held[:-1]
            todo += [(places[t], held) for t in s.targets()]
            if s.is_end():
                break
            k += 1

class Text:
    """The lines of the text and of the table: `LINE FILE:LINE:COLUMN`; of symbols type, lengths, rooms, name in C."""
    def __init__(self, path, translation, functions):
        self.lines, self.table = [], []
        self.line(f'# Made of {os.path.basename(path)} by sloth cc: change that file, not this one.')
        self.put_data(translation.symbols.values(), functions)
        spots = [f.node.decl.coord for f in functions]
        for _, k in sorted(((c.file, c.line, c.column), k) for k, c in enumerate(spots)):
            self.put_body(functions[k])
        called = {s.detail for f in functions for s in f.steps if s.op == 'call'}
        called.update(c for name in called & set(ROUTINES) for c in ROUTINES[name].calls)
        for text in (r.text for name, r in ROUTINES.items() if name in called):
            for row in [''] + text.split('\n'):
                self.line(row)

    def line(self, text, spot=None):
        self.lines.append(text)
        if spot is not None:
            self.table.append(f'{len(self.lines)} {place_text(spot)}')

    def put_data(self, variables, functions):
        used = {s.detail[0] for f in functions for s in f.steps if s.op in LOADS | STORES}
        for v in variables:
            if v not in used and (not v.is_used or v.is_const or v.path is None):
                continue
            start = bytes(v.data[:v.size()]).rstrip(b'\0').hex()
            self.line(f'data {v.symbol}, {v.size()}' + (f', {start}' if start else ''))
            lengths, rooms = (','.join(map(str, numbers)) or '-' for numbers in (v.lengths, v.rooms))
            self.table.append(f'data {v.symbol} {v.type.name.replace(" ", "-")} {lengths} {rooms} {v.path or "-"}')

    def put_body(self, f):
        start = f.node.decl.coord
        self.line('')
        self.put_source(start)
        self.line(f'{"task" if f.is_task else "func"} {f.name}' + (f', {f.frame}' if f.frame else ''), start)
        hold(f.steps)
        last = (start.file, start.line)
        for s in f.steps:
            if s.op in MARKERS:
                continue
            if s.op == 'label':
                self.line(f'label {", ".join([s.detail, *s.held])}', s.spot)
                continue
            if s.spot is not None and (s.spot.file, s.spot.line) != last:
                last = (s.spot.file, s.spot.line)
                self.put_source(s.spot)
            self.line('  ' + item_text(s), s.spot)
        self.line('end')

    def put_source(self, spot):
        """The line of C as a comment that `symbols` reads: what follows comes from there."""
        lines = file_lines(spot.file)
        text = f'#line {spot.line} "{spot.file}"  {lines[spot.line - 1].strip() if spot.line <= len(lines) else ""}'
        self.line(''.join(c if c >= ' ' else ' ' for c in text).rstrip())
