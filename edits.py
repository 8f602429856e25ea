"""Tries the edits that the prover must refuse and the gate does not try, edits/NAME/*.edit, as `edits.py [NAME..]`:
those of all crates, or of the crates named.

Edits in functions of their own are made in one copy of their crate, and the prover is asked for these functions
alone. One whose function it does not refuse there, and one that stands outside of a function, is made in a copy of its
own and judged by the merge gate's own code (`rt` is a Python program). The crates are proved first, by prove.py, which
takes what it proved before: an edit is tried over the libraries that lie there. The status is 0 where each edit was
refused. One that is still proved, one whose line is gone, one that the prover cannot read and a file that is no edit
fail.
"""
import os
import re
import resource
import shutil
import subprocess
import sys
import tempfile
import types
from concurrent.futures import ThreadPoolExecutor

ROOT = os.path.dirname(os.path.realpath(__file__))
# The memory in bytes that is wanted for each check, above the most that was measured.
MEMORY = 1_900_000_000

def end(status, text):
    print(f"edits: {text}", flush=True)
    sys.exit(status)

def load(kit):
    gate = types.ModuleType("gate")
    gate.__file__ = f"{kit}/bin/rt"
    with open(gate.__file__, encoding="utf-8") as it:
        exec(compile(it.read(), gate.__file__, "exec"), gate.__dict__)
    gate.rtlib.Crate, gate.rtlib.stop, gate.stop = gate.Crate, sys.exit, sys.exit
    gate.Crate.allowed, gate.Crate.cuts_libraries = gate.handles_of(ROOT), True
    return gate

def edits_of(name):
    """Returns the crate's edits, and the files in its folder that are none."""
    folder = f"{ROOT}/edits/{name}"
    files = sorted(os.listdir(folder))
    good = [it for it in files if re.fullmatch(r"[\w-][\w.-]*\.edit", it, re.ASCII) and os.path.isfile(f"{folder}/{it}")]
    return [f"{folder}/{it}" for it in good], [f"edits/{name}/{it}" for it in files if it not in good]

def function_at(path, text, place):
    """Returns the function of a file that holds this place in its text, by its path below the crate, or nothing."""
    found, owner, before = None, [], text[:place].rpartition("\n")[0].split("\n")
    for line in [*before, text[len("\n".join(before)):].lstrip("\n").partition("\n")[0]]:
        head = re.match(r"(?:impl|(?:pub(?:\(\w+\))? )?trait)\b(?:<.*?>(?= ))? (.*)", line)
        if head:
            names = re.findall(r"(\w+)(?:<[^{]*?>)?(?= for |\s*(?:\{|where|$))", head[1])
            owner = ["".join(reversed(names))]
        at = re.match(r"(\s*)(?:pub(?:\(\w+\))? )?(?:const )?fn (\w+)", line)
        if at:
            found = (at[1], at[2])
        elif found and line == f"{found[0]}}}":
            found = None
    modules = [it for it in path[: -len(".rt")].split("/")[1:] if it not in ("lib", "mod")]
    return "::".join([*modules, *(owner if found[0] else []), found[1]]) if found else None

def functions_of(crate, edit):
    """Returns the functions that an edit changes, or nothing where it changes another text too."""
    with open(edit, encoding="utf-8") as it:
        text = it.read()
    found, path = set(), ""
    for line in text.split("\n"):
        if line.startswith("file: "):
            path = line[len("file: "):].strip()
        elif line.startswith("old: "):
            with open(f"{crate.folder}/{path}", encoding="utf-8") as it:
                whole = it.read()
            place = whole.find(line[len("old: "):])
            found.add(function_at(path, whole, place) if path.startswith("src/") and place >= 0 else None)
    return found

def refused_together(gate, crate, edits):
    """Returns the edits whose functions the prover refuses when all are made in one copy."""
    with tempfile.TemporaryDirectory(prefix=f"edits-{os.getpid()}-") as room:
        for part in gate.rtlib.PARTS:
            if os.path.isdir(f"{crate.folder}/{part}"):
                shutil.copytree(f"{crate.folder}/{part}", f"{room}/{part}")
        asked, texts = set(), {}
        for edit, functions in edits:
            changed, why = gate.read_edit(edit, room)
            if why:
                return []
            texts.update(changed)
            asked |= functions
            for path, text in changed.items():
                with open(f"{room}/{path}", "w", encoding="utf-8") as it:
                    it.write(text)
        only = [word for it in sorted(asked) for word in ("--only", it)]
        words = [gate.rtlib.RATTLE, "check", *crate.words(["--jobs", "1", *only], keeps=False)]
        how = {"cwd": room, "stdin": subprocess.DEVNULL, "stdout": subprocess.PIPE, "stderr": subprocess.STDOUT, "errors": "replace"}
        ran = subprocess.run([*gate.rtlib.guarded(), *words], **how)
    lines = ran.stdout.split("\n")
    if ran.returncode != 1 or any(gate.unread(it, texts) for it in lines):
        return []
    failed = {it[1] for it in (re.match(r"fn (\S+): (?:not proved|no proof)\b", line) for line in lines) if it}
    return [edit for edit, functions in edits if functions <= {it.partition("::")[2] for it in failed}]

def tried(gate, crate, edits):
    """Returns for each edit whether the prover refused it, and what to say."""
    rounds, given = [], {}
    for edit in edits:
        functions = functions_of(crate, edit)
        if None not in functions:
            room = next((it for it in rounds if all(functions.isdisjoint(other) for _, other in it)), None)
            if room is None:
                rounds.append(room := [])
            room.append((edit, functions))
    for room in rounds:
        for edit in refused_together(gate, crate, room):
            given[edit] = True, f"must-fail {crate.name}/{os.path.basename(edit)}: refused, as it must be, among {len(room)}"
            print(given[edit][1], flush=True)
    for edit in edits:
        if edit not in given:
            kind, text = gate.must_fail(crate, edit, ["--jobs", "1"])
            # (a toolchain names the kinds of refusal, or answers whether there was one)
            given[edit] = kind in (getattr(gate, "REFUSED", True), getattr(gate, "AT_LIMIT", True)), text
            print(text, flush=True)
    return [given[it] for it in edits]

def main(named):
    names = named or sorted(os.listdir(f"{ROOT}/edits"))
    page = subprocess.run(["rt", "doc"], check=True, capture_output=True, text=True).stdout.strip()
    kit = os.path.dirname(page)
    gate = load(kit)
    # (the guard, which ends each prover with this process, has to be there before any thread)
    gate.rtlib.guarded()
    crates = {it.name: it for it in gate.rtlib.crates_below(ROOT)}
    for it in names:
        if it not in crates or not os.path.isdir(f"{ROOT}/edits/{it}"):
            end(2, f"{it} is no crate with a folder edits/{it}")
    for it in named or ["sloth"]:
        words = [sys.executable, f"{ROOT}/prove.py", kit, ROOT, it, str(os.getpid())]
        if subprocess.run(words, stdin=subprocess.DEVNULL).returncode:
            end(70, f"{it} is not proved, so nothing was tried")
    for it in crates.values():
        it.rlib = f"{it.folder}/out/rlib/stated/{it.name}.rlib"
    # (no `rt` works in these crates meanwhile)
    held = gate.rtlib.lock([*crates.values()])
    edits = {it: edits_of(it) for it in names}
    lanes = max(1, min(gate.processors(), gate.free() // MEMORY))
    with ThreadPoolExecutor(lanes) as pool:
        first = sorted(names, key=lambda it: -len(edits[it][0]))
        given = [it for some in pool.map(lambda it: tried(gate, crates[it], edits[it][0]), first) for it in some]
    strays = [it for name in names for it in edits[name][1]]
    failed = strays + [text.partition(": ")[0].replace("must-fail ", "") for well, text in given if not well]
    used = resource.getrusage(resource.RUSAGE_CHILDREN)
    print(f"edits: {used.ru_utime + used.ru_stime:.0f} s of processor time")
    for it in held:
        os.close(it)
    if failed:
        end(1, f"{sum(well for well, _ in given)} refused, {len(failed)} failed: {' '.join(failed)}")
    end(0, f"{len(given)} refused, 0 failed")

main(sys.argv[1:])
