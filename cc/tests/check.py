"""Tests of the translator: check.py FUNCTION [FROM TO]. SLOTH is the program, CC a folder with another translator."""
import collections
import os
import pathlib
import re
import sys
import tempfile

import random_c
from compare import CC, HERE, both, data_of_gcc, data_of_sloth, run, translated, write

ROOT = os.path.dirname(os.path.dirname(HERE))
CSMITH = '''csmith --no-pointers --no-longlong --no-math64 --no-argc --no-bitfields --no-packed-struct --no-unions
    --no-structs --no-jumps --no-checksum --nomain --max-funcs 4 --max-block-depth 3 --max-expr-complexity 5 --quiet
    --concise'''.split()
APPS = {'cc/tests/apps/mailbox': ['Milli', 'Milli', 'Post'], 'cc/tests/apps/debounce': ['Milli'],
        'examples/engine/engine': ['Milli', 'Crank']}

def blocks(name):
    """The cases of a file: what stands behind `== `, and the lines up to the next one."""
    cases = '\n' + pathlib.Path(HERE, name).read_text()
    return [(part + '\n').split('\n', 1) for part in cases.split('\n== ')[1:]]

def several(folder, kind, cases):
    """Compares programs. Of each stand its name, text, and words for the translator."""
    sums, facts, bad = collections.Counter(), [], 0
    for name, text, words in cases:
        try:
            answer, more = both(folder, write(f'{folder}/{kind}.c', text), *words)
        except Exception as fault:      # pylint: disable=broad-except
            answer, more = f'fault: {fault!r}', {}
        key = answer.split(':')[0] + (': A6' if answer.startswith('builder') and ' A6' in answer else '')
        sums[key] += 1
        facts.append(more)
        if key not in ('same', 'long', 'builder: A6')[:1 if kind == 'fixed' else 3]:
            bad += 1
            print(kind, name, *words, answer[:300], flush=True)
            if 'FIRST' in os.environ:
                break
    ratios = [f['work'] / f['count'] for f in facts if f.get('work')]
    values = sum(f.get('values', 0) for f in facts)
    print(f'{kind}: {len(facts)} programs: {dict(sums)}, {values} values, {bad} differ; {len(ratios)} work lines hold, '
          f'at {min(ratios, default=0):.2f} to {max(ratios, default=0):.2f} times what was executed')
    return bad

def fixed(folder):
    programs = sorted(pathlib.Path(HERE, 'programs').glob('*.c'))
    return several(folder, 'fixed', ((p.name, p.read_text(), w) for p in programs for w in ([], ['--no-inline'])))

def random(folder, first=0, last=60):
    seeds = range(int(first), int(last))
    return several(folder, 'random', ((s, random_c.Program(s).text, ['--no-inline'][:s & 1]) for s in seeds))

def csmith(folder, first=0, last=60):
    def text(seed):
        words = CSMITH + ['--no-arrays'] * (seed % 3 == 0) + ['--seed', str(seed)]
        call = '\nuint32_t result;\nTASK(Main) { result = (uint32_t)func_1(); TerminateTask(); }\n'
        return run(words, cwd=folder).stdout.replace('"csmith.h"', f'"{HERE}/csmith.h"') + call
    seeds = range(int(first), int(last))
    return several(folder, 'csmith', ((s, text(s), ['--no-inline'][:s & 1]) for s in seeds))

def judged(name, judge):
    """How many cases of a file, behind its head, the judge finds fault with."""
    (_, head), *cases = blocks(name)
    faults = 0
    for title, text in cases:
        said = judge(title, text, head)
        if said:
            faults += 1
            print(f'{name}: {title}: {said}')
    print(f'{name}: {len(cases)} programs, {faults} with another answer')
    return faults

def wrong(folder):
    """Wrong programs: place and reason of each message, one line, and nothing is written."""
    environment = {k: v for k, v in os.environ.items() if k != 'CC_FAULTS'}
    def judge(title, text, head):
        place, words = title.split(' ', 1)
        text = head + (f'TASK(Main) {{ {text[2:].strip()} TerminateTask(); }}\n' if text.startswith('> ') else text)
        program, source = write(f'{folder}/wrong.c', text), f'{folder}/wrong.src'
        done = run([sys.executable, os.path.join(CC, 'cc.py'), program, source], env=environment)
        form = re.escape(f'{program}:{place}') + r'(:\d+)?: error: .*' + re.escape(words) + '.*\n'
        good = done.returncode == 2 and re.fullmatch(form, done.stderr) and not os.path.exists(source)
        return '' if good else f'{done.returncode} {done.stderr[-200:].strip()}'
    return judged('wrong.txt', judge)

def told(folder):
    """What the builder refuses, told of lines of C."""
    def judge(title, text, head):
        oil, program = head.split('\n---\n')
        write(f'{folder}/told.oil', oil)
        program = write(f'{folder}/told.c', program + text + '}\n')
        words = [os.path.join(ROOT, 'sloth'), 'why', f'{folder}/told.oil', program]
        done = run(words, env={**os.environ, 'XDG_CACHE_HOME': folder})
        answer = done.stdout.replace(folder + '/', '').replace('\n', ' / ')
        return '' if title in answer else answer + done.stderr
    return judged('told.txt', judge)

def apps(folder):
    """Applications, by the OSEK of host/osek.c and by sloth: all data behind 300 arrivals, each when all is idle."""
    faults, values, source, arr = 0, 0, f'{folder}/run.src', f'{folder}/run.arr'
    for name, lines in APPS.items():
        base, arrivals = os.path.join(ROOT, name), [lines[k * k % len(lines)] for k in range(1, 301)]
        write(arr, ''.join(f'{3000 * k} {line}\n' for k, line in enumerate(arrivals, 1)))
        status, _, mine = translated(base + '.c', source, '--oil', base + '.oil')
        if not status:
            mine, _ = data_of_sloth(folder, source, base + '.oil', arr, True)
        write(f'{folder}/tables.h', f'#include "{HERE}/apps/{os.path.basename(name)}.h"\n'
              f'static int arrivals[] = {{ {", ".join(arrivals)} }};\n')
        host = data_of_gcc(folder, base + '.c', source, (f'#include "{CC}/host/osek.c"\n', '  host_run();\n'))
        values += len(host)
        if not isinstance(host, dict) or mine != host:
            faults += 1
            print(name, str(mine)[:500], str(host)[:500])
    print(f'apps: {len(APPS)} applications, {values} values, {faults} differ')
    return faults

def mutants(folder):
    """Faults put into the translator: each is found by the fixed programs, the applications or random ones."""
    def judge(title, text, _):
        old, new = (''.join(row[2:] + '\n' for row in text.split('\n') if row[:2] == mark) for mark in ('- ', '+ '))
        run(['rm', '-rf', f'{folder}/cc'])
        run(['cp', '-r', os.path.join(ROOT, 'cc'), f'{folder}/cc'])
        body = pathlib.Path(folder, 'cc', title).read_text()
        if body.count(old) != 1:
            return 'the line does not stand once'
        write(f'{folder}/cc/{title}', body.replace(old, new))
        for words in (['fixed'], ['apps'], ['random', '0', '40']):
            environment = {**os.environ, 'CC': f'{folder}/cc', 'FIRST': '1'}
            if run([sys.executable, os.path.join(HERE, 'check.py'), *words], env=environment).returncode:
                return print(f'mutants: {title}: {old.strip()[:70]}: found by {words[0]}', flush=True)
        return f'{old.strip()}: not found'
    return judged('mutants.txt', judge)

if __name__ == '__main__':
    with tempfile.TemporaryDirectory() as room:
        sys.exit(1 if globals()[sys.argv[1]](room, *sys.argv[2:]) else 0)
