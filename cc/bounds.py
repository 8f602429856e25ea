"""Bounds of the work of a task, from the bounds of its loops: an aid for LOAD files, checked by nothing."""
from passes import INVERSE, LOADS, STORES, label_places, loop_end
from text import ROUTINES
from values import INT, Refusal, is_short

# instructions of a service's code at most, of the caller that goes on and of the one that ends or waits
COUNTS = {
    'ActivateTask': 12, 'TerminateTask': 49, 'ChainTask': 63, 'Schedule': 13, 'GetTaskID': 6, 'GetTaskState': 11,
    'GetResource': 9, 'ReleaseResource': 6, 'SetEvent': 20, 'ClearEvent': 13, 'GetEvent': 12, 'WaitEvent': 86,
    'SetRelAlarm': 17, 'SetAbsAlarm': 22, 'CancelAlarm': 8, 'GetAlarm': 8}
NEAR_WORDS = 1000       # a branch of a body with no more words reaches each place of it

def work_lines(functions):
    """Lines for a LOAD: of each task with a loop its work, or a comment that says why there is none."""
    done, frames = {n: r.counts for n, r in ROUTINES.items()}, {f.name: f.frame for f in functions}
    loops, lines = set(ROUTINES), []
    for f in functions:
        labels = label_places(f.steps)
        if any(s.op == 'loop' and s.detail[0] in labels or s.op == 'call' and s.detail in loops for s in f.steps):
            loops.add(f.name)
        try:
            done[f.name] = work(f, done, frames)
            text = f'work {f.name} {done[f.name]}'
        except Refusal as why:
            done[f.name] = why.reason       # in the place of counts
            text = f'# no work line of {f.name}: {why}'
        if f.is_task and f.name in loops:
            lines.append(text)
    return lines

def work(f, done, frames):
    for s in f.steps:
        if s.op == 'call' and isinstance(done[s.detail], str):
            raise Refusal(s.spot, done[s.detail])
        if s.op == 'service' and s.detail[0] == 'WaitEvent':
            raise Refusal(f.node, 'it waits: count from wait to wait by hand')
    counts = [item_counts(s, done, frames) for s in f.steps]
    words = [4 + frames.get(s.detail, 0) if s.op == 'call' else min(c, 4) for c, s in zip(counts, f.steps)]
    if sum(words) > NEAR_WORDS:
        counts = [6 if s.op in INVERSE else c for c, s in zip(counts, f.steps)]
    return max(Ways(f.steps, counts).longest(0, len(f.steps), 0).values(), default=0)

def item_counts(s, done, frames):
    """Instructions of an item at most, with those that it calls."""
    if s.op in ('label', 'loop', 'endloop'):
        return 0
    if s.op == 'li':
        return 1 if is_short(INT.wrap(s.detail)) or s.detail & 0xfff == 0 else 2
    if s.op in LOADS or s.op in STORES:
        return 1 if s.detail[0] is None else 4 if len(s.uses) > (s.op in STORES) else 2
    if s.op == 'call':
        return 4 + frames.get(s.detail, 0) + done[s.detail]
    if s.op == 'service':
        return 2 + len(s.detail[1]) + COUNTS[s.detail[0]]
    return 3 if s.op == 'ret' else 1

class Ways:
    """Longest ways through steps, loops inside taken as often as their bounds allow."""
    def __init__(self, steps, counts):
        self.steps, self.counts, self.places = steps, counts, label_places(steps)

    def longest(self, low, high, start, top=None):
        """The greatest counts from start to each step outside low to high, and to `top`, where the way ends."""
        inside, out = {start: 0}, {}
        def go(k, counts):
            where = out if k == top or not low <= k < high else inside
            where[k] = max(where.get(k, 0), counts)
        k = start
        while k < high:
            here, s = inside.get(k), self.steps[k]
            if here is not None and s.op == 'loop':
                end = loop_end(self.steps, k)
                for target, counts in self.around(k, end).items():
                    go(target, here + counts)
                k = end
                continue
            if here is not None:
                here += self.counts[k]
                for target in (self.places[t] for t in s.targets()):
                    if low <= target <= k and target != top:
                        raise Refusal(s.spot, 'this loop has no bound')
                    go(target, here)
                go(len(self.steps) if s.is_end() and not s.targets() else k + 1, here) if s.op != 'j' else None
            k += 1
        return out

    def around(self, k, end):
        """The greatest counts of a loop to each step outside it: a way to its top, rounds back to it, a way out."""
        label, bound = self.steps[k].detail
        top = self.places.get(label)
        if top is None:         # it never comes back
            return self.longest(k + 1, end, k + 1)
        if bound is None:
            raise Refusal(self.steps[k].spot, 'this loop has no bound')
        out = {top: 0} if top == k + 1 else self.longest(k + 1, end, k + 1, top)
        first = out.pop(top, None)
        if first is not None and bound > 0:
            rounds = self.longest(top, end, top, top)
            back = rounds.pop(top, 0)
            for target, counts in rounds.items():
                out[target] = max(out.get(target, 0), first + (bound - 1) * back + counts)
        return out
