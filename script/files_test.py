#!/usr/bin/env python3
"""What becomes of files, outside the gate: `files_test.py PROGRAM`, where PROGRAM is the built program, proved or not.

A copy of this repository, with PROGRAM in its place, in which sources change under old times and which moves elsewhere; and outputs of PROGRAM over
files of mode 0600, over links and at devices. Run by root it plants a link of another user too. It ends with status 0 where nothing was otherwise.
"""
import os, shutil, stat, subprocess, sys, tempfile

ROOT = os.path.dirname(os.path.dirname(os.path.abspath(__file__)))
PROGRAM = os.path.abspath(sys.argv[1])
faults = []

def want(what, said):
    print(("as it is meant: " if said else "OTHERWISE: ") + what)
    if not said:
        faults.append(what)

def call(words, folder, **more):
    return subprocess.run(words, cwd=folder, capture_output=True, text=True, stdin=subprocess.DEVNULL, **more)

def text_of(name):
    with open(name, encoding="latin-1") as it:
        return it.read()

def write(name, text):
    with open(name, "w", encoding="latin-1") as it:
        it.write(text)

def mode_of(name):
    return stat.S_IMODE(os.stat(name).st_mode)

# ---- the repository

def copy_repository(top):
    """A copy whose program is ready, with a stand-in for the command rt and for prove.py, which says that it was called."""
    ours = f"{top}/repository"
    shutil.copytree(ROOT, ours, ignore=shutil.ignore_patterns("out", ".git", ".kept", ".libs", "unlanded"))
    write(f"{ours}/prove.py", "import sys\nprint('PROVES', file=sys.stderr)\nsys.exit(75)\n")
    os.makedirs(f"{top}/kit/bin")
    write(f"{top}/kit/bin/rt", "#!/bin/sh\necho \"${0%/bin/rt}/START-HERE.md\"\n")
    os.chmod(f"{top}/kit/bin/rt", 0o755)
    for name in ("sloth", "sloth_core"):
        out = f"{ours}/crates/{name}/out/rlib/stated"
        os.makedirs(out)
        shutil.copy(PROGRAM, f"{out}/{name}")
        summed = call(["sh", "-c", '. script/ready.sh; root=$PWD; sum_sources'], ours).stdout
        write(f"{out}/ready", summed)
    return ours

def try_repository(top):
    ours = copy_repository(top)
    words = ["./sloth", "order", "examples/door"]
    path = {**os.environ, "PATH": f"{top}/kit/bin:{os.environ['PATH']}"}
    answers = lambda folder: (lambda it: it.returncode == 0 and it.stdout != "" and "PROVES" not in it.stderr)(call(words, folder, env=path))
    want("a program that is ready answers", answers(ours))
    source = f"{ours}/crates/sloth_base/src/lib.rt"
    before, times = text_of(source), os.stat(source)
    write(source, before + "// one comment more\n")
    os.utime(source, ns=(times.st_atime_ns, times.st_mtime_ns))
    want("a source that changed under its old time is proved anew", "PROVES" in call(words, ours, env=path).stderr)
    write(source, before)
    want("the source put back, the program answers again", answers(ours))
    os.rename(ours, f"{top}/elsewhere")
    want("a repository that moved answers", answers(f"{top}/elsewhere"))
    shutil.copytree(f"{top}/elsewhere", f"{top}/copy")
    want("a copy of it answers", answers(f"{top}/copy"))

# ---- outputs

def build(folder, name, **more):
    return call([PROGRAM, "build", "door.oil", "door.src", name], folder, **more)

def fresh(top, name):
    folder = f"{top}/{name}"
    shutil.copytree(f"{ROOT}/examples/door", folder)
    return folder

def try_modes(top):
    folder = fresh(top, "modes")
    image = f"{folder}/new.img"
    build(folder, "new.img", umask=0o027)
    want("a file that was not there has the mode of the user's mask", mode_of(image) == 0o640)
    for mode, after in ((0o600, 0o600), (0o640, 0o640), (0o4755, 0o755)):
        write(image, "old")
        os.chmod(image, mode)
        want(f"over a file of mode {mode:o}: done", build(folder, "new.img").stdout.startswith("built"))
        want(f"it has mode {after:o}, and nothing stands beside it", mode_of(image) == after and not os.path.exists(f"{image}.new"))

def try_private(top):
    """The new file is its owner's alone until it has its name: a full system keeps it from getting there."""
    folder = fresh(top, "private")
    image = f"{folder}/old.img"
    write(image, "old")
    os.chmod(image, 0o600)
    limited = call(["sh", "-c", f"ulimit -f 1; trap '' XFSZ; exec {PROGRAM} build door.oil door.src old.img"], folder)
    want("a file that grows too large is a write fault", limited.returncode == 4)
    want("the old one is whole, in its mode, and nothing stands beside it",
         text_of(image) == "old" and mode_of(image) == 0o600 and not os.path.exists(f"{image}.new"))
    write(f"{image}.new", "mine")
    want("a file of the new one's name is a write fault", build(folder, "old.img").returncode == 4)
    want("both are as they were", text_of(image) == "old" and text_of(f"{image}.new") == "mine")

def try_links(top):
    folder = fresh(top, "links")
    write(f"{folder}/there", "old")
    os.symlink("there", f"{folder}/link.img")
    want("a link of the user's own is followed", build(folder, "link.img").returncode == 0 and text_of(f"{folder}/there") != "old")
    want("and stays a link", os.path.islink(f"{folder}/link.img"))
    if os.getuid() != 0:
        print("not tried: a planted link (root alone can plant one)")
        return
    write(f"{folder}/there", "old")
    os.lchown(f"{folder}/link.img", 65534, 65534)
    want("a link that another user planted is a write fault", build(folder, "link.img").returncode == 4)
    want("and what it leads to is as it was", text_of(f"{folder}/there") == "old")

def try_devices(top):
    folder = fresh(top, "devices")
    want("/dev/null is written", build(folder, "/dev/null").returncode == 0)
    want("/dev/full is a write fault", build(folder, "/dev/full").returncode == 4)
    want("a pipe by /dev/stdout is written", subprocess.run(f"{PROGRAM} build door.oil door.src /dev/stdout | tail -c 20 | grep -q built", shell=True, cwd=folder).returncode == 0)

with tempfile.TemporaryDirectory(prefix="sloth-files-") as top:
    for part in (try_modes, try_private, try_links, try_devices, try_repository):
        part(top)
print(f"{len(faults)} otherwise")
sys.exit(1 if faults else 0)
