"""One program of C by gcc on this host, and by the translator and sloth: all data of the file."""
import contextlib
import io
import os
import pathlib
import re
import subprocess
import sys

HERE = os.path.dirname(os.path.abspath(__file__))
CC = os.environ.get('CC', os.path.dirname(HERE))        # the translator's folder
SLOTH = os.environ.get('SLOTH', os.path.join(os.path.dirname(CC), 'sloth'))
os.environ.update(SLOTH=SLOTH, CC_FAULTS='1')
sys.path.insert(0, CC)
import cc       # noqa: E402 pylint: disable=wrong-import-position
from values import BOOL, INT, S8, S16, U8, U16, UINT        # noqa: E402 pylint: disable=wrong-import-position

OIL = os.path.join(HERE, 'main.oil')       # one task, Main, that starts with the system
GCC = ['gcc', '-w', '-O1', '-fwrapv', '-funsigned-char', '-I', os.path.join(CC, 'include')]
TYPES = {kind.name.replace(' ', '-'): kind for kind in (S8, U8, S16, U16, INT, UINT, BOOL)}
BOOT = 61       # the counts in front of the first item of the task of OIL

def run(words, **more):
    return subprocess.run(words, capture_output=True, text=True, check=False, **more)

def write(path, text):
    pathlib.Path(path).write_text(text, encoding='latin-1')
    return path

def translated(path, source, *words):
    """Status, standard output and standard error of the translator."""
    out, err = io.StringIO(), io.StringIO()
    with contextlib.redirect_stdout(out), contextlib.redirect_stderr(err):
        status = cc.main([*words, path, source])
    return status, out.getvalue(), err.getvalue()

def symbols(source):
    """Of each symbol its name, bytes of an element, sign, lengths, rooms, and name in C."""
    with open(source + '.map', encoding='ascii') as table:
        for row in table:
            word = row.split()
            if word[0] == 'data':
                lengths, rooms = ([] if w == '-' else [int(n) for n in w.split(',')] for w in word[3:5])
                kind = TYPES[word[2]]
                yield word[1], kind.size, kind.signed, lengths, rooms, word[5]

def elements(lengths, rooms, path):
    """Names in C, and numbers of elements in memory."""
    out = [(path, 0)]
    for length, room in zip(lengths, rooms):
        out = [(name.replace('[]', f'[{k}]', 1), at * room + k) for name, at in out for k in range(length)]
    return out

def replies(image, arrivals, packets):
    def packet(text):
        return f'${text}#{sum(text.encode()) & 255:02x}'
    text = '+' + packet('QStartNoAckMode') + '+' + ''.join(map(packet, packets))
    done = subprocess.run([SLOTH, 'debug', image, arrivals], input=text.encode(), capture_output=True, check=False)
    return re.findall(r'\$([^#]*)#..', done.stdout.decode('latin-1'))[1:]

def data_of_sloth(folder, source, oil, arrivals, at_end):
    """All data, as the run first is idle, or at its end; the count there. Or what refuses the text."""
    image = os.path.join(folder, 'run.img')
    built = run([SLOTH, 'build', oil, source, image])
    if built.returncode:
        return built.stdout.strip(), 0
    rows = [row.split() for row in run([SLOTH, 'map', oil, source]).stdout.splitlines() if row[:1].isdigit()]
    place = {row[3]: int(row[0], 16) for row in rows if row[2] == 'data'}
    idle = next(row[0] for row in rows if row[2] == 'idle')
    packets = ['qRcmd,' + b'goto 999999'.hex()] if at_end else [f'Z0,{idle},4', 'c']
    packets.append('qRcmd,' + b'count'.hex())
    wanted, values, memory = list(symbols(source)), {}, {}
    for name, size, _, *shape in wanted:
        memory[name] = (elements(*shape)[-1][1] + 1) * size
        packets += [f'm{place[name] + at:x},{min(4000, memory[name] - at):x}' for at in range(0, memory[name], 4000)]
    got = replies(image, arrivals, packets)
    skip = 2 if at_end else 3
    count, got = bytes.fromhex(got[skip - 1]).decode(), got[skip:]
    for name, size, signed, *shape in wanted:
        parts = (memory[name] + 3999) // 4000
        raw, got = bytes.fromhex(''.join(got[:parts])), got[parts:]
        for path, at in elements(*shape) if shape[-1] != '-' else []:
            values[path] = int.from_bytes(raw[at * size:(at + 1) * size], 'little', signed=signed)
    return values, int(re.match(r'count (\d+)$', count.strip()).group(1)) if 'stopped' not in count else -1

def data_of_gcc(folder, program, source, more=('', '')):
    """The same data by gcc: more is text in front of main and its call."""
    rows = [name for row in symbols(source) if row[5] != '-' for name, _ in elements(*row[3:])]
    prints = ''.join(f'  printf("{row} %lld\\n", (long long){row});\n' for row in rows)
    text = f'#include "{os.path.abspath(program)}"\n#include <stdio.h>\n{more[0]}int main(void) {{\n'
    done = run(GCC + ['-I', folder, '-o', f'{folder}/host', write(f'{folder}/host.c', text + more[1] + prints + '}\n')])
    if done.returncode:
        return 'gcc: ' + done.stderr[:300]
    try:
        done = run([f'{folder}/host'], timeout=5)
    except subprocess.TimeoutExpired:
        return 'gcc: it does not end'
    pairs = [row.rsplit(' ', 1) for row in done.stdout.splitlines()]
    return {name: int(number) for name, number in pairs} or f'gcc: {done.returncode}'

ENDS = ('#include <setjmp.h>\nstatic jmp_buf host_end;\nvoid TerminateTask(void) { longjmp(host_end, 1); }\n',
        '  if (!setjmp(host_end)) os_task_Main();\n')

def both(folder, program, *words):
    """`same` or what differs; how many values, the counts, what `work` says, the items."""
    source, facts = os.path.join(folder, 'run.src'), {}
    status, out, err = translated(program, source, *words)
    if status:
        return 'refused: ' + err.strip(), facts
    mine, count = data_of_sloth(folder, source, OIL, '/dev/null', False)
    if not isinstance(mine, dict):
        return 'builder: ' + mine, facts
    if count < 0 or count > 999990:
        return 'long' if count > 0 else 'stopped', facts
    gcc = data_of_gcc(folder, program, source, ENDS)
    if not isinstance(gcc, dict):
        return gcc, facts
    work = re.search(r'^work Main (\d+)', out, re.M)
    facts = {'values': len(gcc), 'count': count - BOOT, 'work': int(work.group(1)) if work else None}
    if work and count - BOOT > facts['work']:
        return f'work {facts["work"]}, but {count - BOOT} were executed', facts
    apart = [f'{k}: gcc {gcc[k]}, sloth {mine.get(k)}' for k in gcc if gcc[k] != mine.get(k)]
    return ('differ: ' + '; '.join(apart[:5]) if apart else 'same'), facts
