"""Task code in C to task code of sloth: cc.py [--oil FILE.oil] [--no-inline] FILE.c OUT.src
Writes OUT.src and OUT.src.map, prints work lines for a load. Nothing here is proved; sloth judges OUT.src as any text.
"""
import bisect
import collections
import functools
import os
import re
import subprocess
import sys
import tempfile

HERE = os.path.dirname(os.path.abspath(__file__))

def lacks(name, package):
    sys.stderr.write(f'sloth: task code in C wants `{name}`, which is not here; Debian has it: {package}\n')
    return 70

try:
    from pycparser import c_parser
except ImportError:
    sys.exit(lacks('pycparser', 'python3-pycparser'))

from bounds import work_lines       # noqa: E402
from front import Translation       # noqa: E402
from text import Text               # noqa: E402
from values import MAIN, ROWS, Refusal, file_lines, refuse_if        # noqa: E402

Spot = collections.namedtuple('Spot', 'file line column')

class Configuration:
    """Numbers of tasks and masks of events, as the program itself builds with them."""
    def __init__(self, path):
        program = os.environ.get('SLOTH', os.path.join(os.path.dirname(HERE), 'sloth'))
        self.path, self.program = path, [program, *os.environ.get('SLOTH_WORDS', '').split()]

    def call(self, *words):
        done = subprocess.run([*self.program, *words], stdout=subprocess.PIPE, text=True, check=False)
        refuse_if(done.returncode == 70, None, 'the program cannot be asked for numbers')
        return [row.split() for row in done.stdout.splitlines()]

    def ask(self, folder, command, tasks, *calls):
        """What a command answers to bodies of these tasks, where the first one makes the calls."""
        source = os.path.join(folder, 'probe.src')
        with open(source, 'w', encoding='ascii') as out:
            for k, task in enumerate(tasks):
                out.write('\n'.join([f'task {task}', *(calls if k == 0 else ()), 'TerminateTask', 'end', '']))
        return self.call(command, self.path, source, *[os.path.join(folder, 'probe.img')][:command == 'build'])

    @functools.lru_cache(None)
    def tasks(self, folder):
        """By number: `why` names those that lack a body, `map` tells their order."""
        names, rows = [], [['', '', '', 'A7']]
        while rows and rows[0][-1] == 'A7':
            rows = self.ask(folder, 'why', names)
            names += [row[1] for row in rows if row[0] == 'name']
        return [row[1] for row in self.ask(folder, 'map', names) if row[0] == 'need']

    @functools.lru_cache(None)
    def number(self, kind, name):
        with tempfile.TemporaryDirectory() as folder:
            tasks = self.tasks(folder)
            if kind == 'task':
                return tasks.index(name) if name in tasks else None
            for task in tasks if kind == 'event' else []:
                self.ask(folder, 'build', tasks, f'SetEvent {task}, {name}')
                if os.path.exists(f'{folder}/probe.img'):
                    return self.mask(f'{folder}/probe.img', tasks[0])
        return None

    def mask(self, image, task):
        """Of the first item: `list` shows the two instructions in front of its call, which load the mask."""
        words = self.call('list', image)
        at = next(k for k, row in enumerate(words) if row[2:] == ['service', task, '0'])
        upper, lower = int(words[at - 2][1], 16), int(words[at - 1][1], 16)
        return (upper & 0xfffff000) + (lower >> 20) - (lower >> 31 << 12) & 0xffffffff

def preprocessed(path):
    """The text of C without macros, or None; ROWS gets its lines."""
    words = ['cpp', '-nostdinc', '-undef', '-D__SLOTH__', '-I', os.path.join(HERE, 'include'), path]
    environment = {**os.environ, 'LC_ALL': 'C'}
    done = subprocess.run(words, capture_output=True, encoding='latin-1', env=environment, check=False)
    if done.returncode:
        rows = done.stderr.splitlines()
        for row in [row for row in rows if 'error: ' in row] or rows[:1]:
            row = row.replace('fatal error: ', 'error: ')
            sys.stderr.write((row if re.match(r'.*?:\d+:\d+: ', row) else f'{path}:1:1: error: {row}') + '\n')
        return None
    file, line = None, 0
    for row in done.stdout.split('\n'):
        mark = re.match(r'#(?: *line)? (\d+) "(.*?)"', row)
        if mark:
            file, line = mark.group(2), int(mark.group(1))
        else:
            ROWS[file, line] = row
            line += 1
    return done.stdout

def parsed(text, path):
    """The tree of a text. A fault that the parser gives no place is told of the first line that has it."""
    rows = text.split('\n')
    def attempt(count):
        try:
            return c_parser.CParser().parse('\n'.join(rows[:count]), path), ''
        except Exception as fault:      # pylint: disable=broad-except
            return None, str(fault) or 'a brace too many'
    tree, fault = attempt(len(rows))
    if tree is None:
        found = re.match(r'(.*?):(\d+):(\d+): *(.*)', fault.replace('before:', 'in front of'), re.S)
        if found:
            spot, fault = Spot(found.group(1), int(found.group(2)), int(found.group(3))), found.group(4)
        else:
            last = max(k for k, row in enumerate(rows) if row and row[0] != '#')
            if 'At end' not in fault:
                last = bisect.bisect_left(range(last), True, key=lambda k: attempt(k + 1)[1] == fault)
            mark = max(k for k in range(last) if rows[k].startswith('# '))
            number, file = re.match(r'# (\d+) "(.*?)"', rows[mark]).groups()
            spot, fault = Spot(file, int(number) + last - mark - 1, 1), fault.rsplit(': ', 1)[-1]
        raise Refusal(spot, 'no C of this language: ' + fault)
    return tree

def translate(path, out_path, oil, inline):
    """Writes the text and its table, if all is well; prints work lines. The status."""
    MAIN[0] = path
    ROWS.clear()
    file_lines.cache_clear()
    translation = Translation(Configuration(oil) if oil else None, inline)
    try:
        text = preprocessed(path)
        if text is None:
            return 2
        functions = translation.translated(parsed(text, path))
        written = Text(path, translation, functions)
    except FileNotFoundError:
        return lacks('cpp', 'cpp')
    except Exception as fault:      # pylint: disable=broad-except
        is_known = isinstance(fault, (Refusal, RecursionError))
        if 'CC_FAULTS' in os.environ and not is_known:
            raise
        reason = 'this is nested too deeply' if is_known else f'the translator fails here: {fault!r}'
        sys.stderr.write(f'{fault if isinstance(fault, Refusal) else Refusal(translation.spot, reason)}\n')
        return 2
    for name, lines in ((out_path, written.lines), (out_path + '.map', written.table)):
        with open(name + '.new', 'w', encoding='latin-1', errors='replace') as out:
            out.write('\n'.join(lines) + '\n')
        os.replace(name + '.new', name)
    print(''.join(line + '\n' for line in work_lines(functions)), end='')
    return 0

def main(words):
    inline, words = '--no-inline' not in words, [word for word in words if word != '--no-inline']
    oil, words = (words[1], words[2:]) if words[:1] == ['--oil'] and len(words) > 1 else (None, words)
    if len(words) != 2 or not words[0].endswith('.c') or words[1].endswith('.c'):
        sys.stderr.write('the words are: cc [--oil FILE.oil] [--no-inline] FILE.c OUT.src\n')
        return 1
    if not os.path.isfile(words[0]):
        sys.stderr.write(f'{words[0]}: no such file\n')
        return 3
    sys.setrecursionlimit(20000)
    try:
        return translate(*words, oil, inline)
    except OSError as fault:
        sys.stderr.write(f'{words[1]}: {fault.strerror}\n')
        return 4

if __name__ == '__main__':
    sys.exit(main(sys.argv[1:]))
