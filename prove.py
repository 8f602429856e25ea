"""Proves the crates that a program of this repository is made of, and builds it, as `prove.py KIT ROOT NAME PARENT`. The script `sloth` calls it.

Each crate is proved by the merge gate's own code (`rt` is a Python program): the same tests of its text, the same words to the prover, the same
tests of what that answers. Libraries hold their statements alone, as in the gate. Each lies in crates/NAME/out/rlib/stated, beside the sum of what
it was proved from (the file key), and a call goes on where the one before stopped: what earlier calls wrote there is all that is trusted here alone.
"""
import ctypes
import errno
import fcntl
import functools
import glob
import hashlib
import os
import re
import shutil
import signal
import sys
import time
import types
from concurrent.futures import FIRST_COMPLETED, ThreadPoolExecutor, wait

KIT, ROOT, NAME, PARENT = sys.argv[1:]
SCREEN = sys.stderr
# The memory in bytes that is wanted for each crate that is being proved, above the most that was measured, and the part of it for each further job.
MEMORY, FURTHER = 1_900_000_000, 0.6
# The space in bytes that all libraries and the program take on the disk.
SPACE = 2_000_000_000

def say(text, stays=True):
    """On a terminal the next line takes the place of one that does not stay."""
    line = f"sloth: {text}"
    if SCREEN.isatty():
        line = "\r\033[K" + (line if stays else line[:79])
    print(line, end="\n" if stays or not SCREEN.isatty() else "", file=SCREEN, flush=True)

def end(status, text):
    """Ends this process at once. The guard, a process that the gate's code starts, then ends each prover."""
    try:
        say(text)
    finally:
        os._exit(status)

for it in (signal.SIGINT, signal.SIGTERM, signal.SIGHUP):
    signal.signal(it, lambda number, _: end(128 + number, "stopped; what is proved is kept, and the next call goes on from there"))
# The script's end, however it comes, is this process's too.
ctypes.CDLL(None).prctl(1, signal.SIGTERM)
if os.getppid() != int(PARENT):
    sys.exit()

gate = types.ModuleType("gate")
gate.__file__ = f"{KIT}/bin/rt"
with open(gate.__file__, encoding="utf-8") as it:
    exec(compile(it.read(), gate.__file__, "exec"), gate.__dict__)
kit = gate.rtlib
kit.Crate, kit.stop, gate.stop = gate.Crate, sys.exit, sys.exit
kit.Crate.below = functools.lru_cache(None)(kit.Crate.below)  # (looked for along each path of crates.txt otherwise)

def gigabytes(count):
    return f"{count / 1e9:.1f} GB"

def find_groups():
    """Has the gate's code look at the control group of this process and at each above it, not at the top alone: the limits of all of them count."""
    for line in (kit.text_of("/proc/self/cgroup") or "").splitlines():
        _, kinds, path = line.split(":", 2)
        for top in [f"/sys/fs/cgroup/{kind}".rstrip("/") for kind in kinds.split(",")]:
            for limits in (kit.GROUPS, kit.QUOTAS):
                for file, (other, pattern) in [it for it in limits if os.path.dirname(it[0]) == top]:
                    folder = top
                    for part in filter(None, path.split("/")):
                        folder += f"/{part}"
                        limits.append((file.replace(top, folder), (other.replace(top, folder), pattern)))

def place(crate):
    return f"{crate.folder}/out/rlib/stated"

def key_of(crate):
    """Returns the sum of what the crate is proved from: the toolchain, its files, and the libraries that it names as they are built, each of which holds
    the sums of those below it."""
    files = [f"{ROOT}/HANDLES", *kit.files_of(crate.folder), *[f"{it.rlib}/format" for it in crate.deps]]
    sums = [(os.path.relpath(it, ROOT), kit.sum_of(it)) for it in files]
    # (the toolchain's by their names in it: so neither it nor the repository has a place of its own)
    sums += [(os.path.relpath(it, KIT), kit.sum_of(it)) for it in (f"{KIT}/WHAT", gate.__file__, kit.__file__)]
    return hashlib.sha256(repr([crate.said, *sums]).encode()).hexdigest()

def sum_of_sources():
    """Returns the sum of the contents of all sources, as the script `sloth` takes it."""
    paths = [f"{ROOT}/crates.txt", f"{ROOT}/HANDLES"]
    for part in ("src", "specs", "proofs"):
        for top in glob.glob(f"{ROOT}/crates/*/{part}"):
            paths += [f"{below}/{name}" for below, _, names in os.walk(top) for name in names]
    names = sorted(os.path.relpath(it, ROOT) for it in paths if os.path.isfile(it) and not os.path.islink(it))
    lines = [f"{hashlib.sha256(open(f'{ROOT}/{it}', 'rb').read()).hexdigest()}  {it}\n" for it in names]
    return hashlib.sha256("".join(lines).encode()).hexdigest()

def prove(crate, jobs):
    """Proves one crate as the gate does, and returns the status of that; what is said of it goes to the file log. A program is compiled and linked too."""
    key = key_of(crate)
    os.makedirs(place(crate), exist_ok=True)
    with open(f"{place(crate)}/log", "w", encoding="utf-8") as crate.out:
        try:
            kit.stop_on_links(crate.folder)
            kit.stop_on_unread(crate.folder, [crate])
            kit.stop_on_text(crate, "verdict")
            gate.stop_on_words(crate)
        except SystemExit as why:
            print(f"rt: {why}", file=crate.out)
            return 1
        words = ["build", *crate.words(["--jobs", str(jobs)], keeps=False), "-o"]
        if crate.is_program:
            made = f"out/rlib/stated/{crate.name}"
            status = crate.prove([*words, f"{made}.o", "--toolchain", f"{KIT}/toolchain", "--backend", "llvm"]) or crate.link(f"{made}.o", made)
        else:
            status = crate.prove([*words, crate.rlib, "--statements"])
    # (with a file edited meanwhile there is no key, so the next call proves the crate again)
    if not status and key == key_of(crate):
        with open(f"{place(crate)}/key", "w", encoding="utf-8") as it:
            it.write(key)
    return status

def prove_all(crates):
    """Proves the crates side by side, each behind those below it, and first those with the longest chain of others above them."""
    began, running, lines, chain, done, killed = time.monotonic(), {}, {}, {}, set(), set()
    for crate in reversed(crates):
        # (what a crate takes goes by its lines of Rust; its start and end take as much as 170 of them, its lemmas next to nothing)
        lines[crate] = 170 + sum((kit.text_of(it) or "").count("\n") for it in kit.files_of(crate.folder) if it.endswith(".rt"))
        chain[crate] = lines[crate] + max((chain[it] for it in chain if crate in it.deps), default=0)
    left = sorted(crates, key=lambda it: -chain[it])

    def settle():
        """Takes from those left, of which lower ones come first, each that is proved from what it would be proved from now."""
        for crate in [*left]:
            made = f"{place(crate)}/{crate.name}" if crate.is_program else crate.rlib
            if done.issuperset(crate.deps) and os.path.exists(made) and kit.text_of(f"{place(crate)}/key") == key_of(crate):
                left.remove(crate)
                done.add(crate)

    settle()
    if not left:
        return
    has, wanted = kit.text_of(f"{KIT}/KIT-ID").strip(), re.search("Proved with `(.*)`", kit.text_of(f"{ROOT}/README.md") or "")
    if wanted and has != wanted[1]:
        say(f"another toolchain: this is {has}, and the repository was proved with {wanted[1]}; a proof may fail with this one")
    share = lambda: 1 - sum(lines[it] for it in done) / sum(lines.values())
    find_groups()
    space, memory, lanes = shutil.disk_usage(ROOT).free, max(gate.free(), 0), gate.processors()
    if space < SPACE * share():
        end(70, f"too little space on the disk of {ROOT}: {gigabytes(SPACE * share())} are wanted, and {gigabytes(space)} are free")
    if memory < MEMORY:
        say(f"little memory: {gigabytes(MEMORY)} are wanted, and {gigabytes(memory)} are free; it is tried with one crate at a time")
    say(f"proving {len(left)} of {len(crates)} crates on {lanes} processors, with {gigabytes(memory)} of free memory")
    pool = ThreadPoolExecutor(lanes)
    while left or running:
        ready = [it for it in left if done.issuperset(it.deps)]
        for at, crate in enumerate(ready):
            idle = lanes - sum(jobs for _, jobs in running.values())
            room = memory / MEMORY - sum(1 + FURTHER * (jobs - 1) for _, jobs in running.values())
            if idle > 0 and (room >= 1 or not running):
                # a crate also gets the processors that no other waits for, as in the gate; among the last ones, which wait for one another, it has two jobs
                jobs = max(idle // (len(ready) - at), 2 if len(left) <= 10 else 1)
                jobs = max(1, min(4, jobs, 1 + int((room - 1) / FURTHER)))
                running[pool.submit(prove, crate, jobs)] = crate, jobs
                left.remove(crate)
        names, minutes = " ".join(it.name for it, _ in running.values()), int(time.monotonic() - began) // 60
        say(f"{len(done)} of {len(crates)} crates proved, {100 * share():.0f} % of the work left, {minutes} min: {names}", stays=False)
        for it in wait(running, return_when=FIRST_COMPLETED).done:
            (crate, _), status = running.pop(it), it.result()
            if not status:
                done.add(crate)
                settle()
            elif status == -signal.SIGKILL and crate not in killed:
                say(f"{crate.name} was killed, most likely for memory: it is tried again, one crate at a time from here on")
                lanes = 1
                left.insert(0, crate)
                killed.add(crate)
            elif status == -signal.SIGKILL:
                end(70, f"too little memory: {crate.name} was killed; {gigabytes(MEMORY)} are wanted, and {gigabytes(memory)} were free")
            elif os.strerror(errno.ENOSPC) in kit.text_of(f"{place(crate)}/log"):
                raise OSError(errno.ENOSPC, "")
            else:
                end(70, f"{crate.name} could not be proved: see {place(crate)}/log")

def main():
    # (the guard has to be there before any thread)
    kit.guarded()
    gate.Crate.allowed, gate.Crate.cuts_libraries = gate.handles_of(ROOT), True
    program = next(it for it in kit.crates_below(ROOT) if it.name == NAME)
    crates = [*program.below(), program]
    for it in crates:
        it.rlib = f"{place(it)}/{it.name}.rlib"
    os.makedirs(place(program), exist_ok=True)
    os.makedirs(place(crates[0]), exist_ok=True)
    # (in the first crate, which all programs are made of)
    with open(f"{place(crates[0])}/lock", "w") as lock:
        try:
            fcntl.flock(lock, fcntl.LOCK_EX | fcntl.LOCK_NB)
        except BlockingIOError:
            say("another call is proving here: this one waits until that has ended")
            fcntl.flock(lock, fcntl.LOCK_EX)
        # (no `rt` works in these crates meanwhile)
        held = kit.lock(crates)
        # (the hints of the gate's code are for those who write a crate)
        sys.stderr = open(f"{place(program)}/hints", "w", encoding="utf-8")
        prove_all(crates)
        # (where a source was changed meanwhile, a crate's key or the sum is another one now, and the next call proves what is left)
        before = sum_of_sources()
        if all(kit.text_of(f"{place(it)}/key") == key_of(it) for it in crates) and before == sum_of_sources():
            with open(f"{place(program)}/started", "w", encoding="utf-8") as it:
                it.write(before)
            os.replace(f"{place(program)}/started", f"{place(program)}/ready")
        else:
            end(70, "a source was changed while it was proved: the next call proves what is left")
        for it in held:
            os.close(it)

try:
    main()
except SystemExit as why:
    end(70, why)
except Exception as error:
    if isinstance(error, OSError) and error.errno == errno.ENOSPC:
        end(70, f"no space is left on the disk of {ROOT}: {gigabytes(SPACE)} are wanted in all, and {gigabytes(shutil.disk_usage(ROOT).free)} are free")
    end(70, f"{type(error).__name__}: {error}")
