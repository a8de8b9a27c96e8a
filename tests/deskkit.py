"""What tests/walnut and tests/eyes share: a folder to work in, checked runs of ./walnut, and files to run them on."""

import os
import shutil
import subprocess
import sys
import tempfile

ROOT = os.path.dirname(os.path.dirname(os.path.abspath(__file__)))
WALNUT = os.path.join(ROOT, "walnut")
BIN = os.path.join(ROOT, "target", "bin")

# the names of the programs that ./walnut runs
LIST = 'root=$0; . "$0/desk_tools/build.bash"; echo "${programs[@]}"'
PROGRAMS = subprocess.run(["bash", "-c", LIST, ROOT], check=True, stdout=subprocess.PIPE, text=True).stdout.split()

runs = 0


def work(*verbs):
    """Makes a new folder and changes to it. The caller removes the folder. These commands run first, without a time
    limit, so that everything they need is built."""
    for verb in verbs:
        run(*verb, timeout=None)
    folder = tempfile.mkdtemp(prefix="walnut tests ")
    os.chmod(folder, 0o755)
    os.chdir(folder)
    return folder


def fail(what):
    sys.exit(f"tests: {what}")


def run(*arguments, walnut=WALNUT, **options):
    """Runs ./walnut. Returns its status, standard output and standard error."""
    global runs
    runs += 1
    captured = {"stdin": subprocess.DEVNULL, "stdout": subprocess.PIPE, "stderr": subprocess.PIPE, "timeout": 120}
    options = {**captured, **options}
    done = subprocess.run([walnut, *arguments], check=False, **options)
    return done.returncode, (done.stdout or b"").decode(), (done.stderr or b"").decode()


def held(name, arguments, status, out, *said, **options):
    """Runs ./walnut and fails unless it has this status and standard output, and these texts on standard error."""
    found = run(*arguments, **options)
    if found[:2] != (status, out) or not all(text in found[2] for text in said):
        fail(f"{name}: {arguments} gave {found}, expected {(status, out, *said)}")
    return found[2]


def put(name, data):
    with open(name, "wb") as file:
        file.write(data)
    return name


def get(name):
    with open(name, "rb") as file:
        return file.read()


# ---- files: the plain key, a digest of zeros, and 128 letters b7, which sign it; strength 256 needs 256 letters

IDENTITY = bytes.fromhex("0800000000004000 0000000200000000 0010000000000080 0000000004000000 00002008")
KEY = bytes.fromhex("0800200844 3214C7") + IDENTITY + bytes.fromhex("053977") + IDENTITY
DIGEST = bytes(32)
LARGE_IDENTITY = bytes.fromhex("010000000000000000" * 6 + "010001")
LARGE_KEY = bytes.fromhex("080100 0101020304050607") + LARGE_IDENTITY + bytes.fromhex("053977") + LARGE_IDENTITY
LARGE_DIGEST = bytes(64)


def word(codes):
    """The word file of these codes."""
    codes = list(codes)
    halves = codes + [0] * (len(codes) % 2)
    return len(codes).to_bytes(2, "big") + bytes(16 * a + b for a, b in zip(halves[::2], halves[1::2]))


def moves(*listed):
    """The file of a move list. Each move is (place, kind)."""
    places = b"".join(place.to_bytes(2, "big") for place, _ in listed)
    return len(listed).to_bytes(2, "big") + places + bytes(kind for _, kind in listed)


SEVENS = word([6] * 128)
LONG = word([6] * 64 + [0, 8] + [6] * 64)
LARGE_SEVENS = word([6] * 256)
LARGE_LONG = word([6] * 128 + [0, 8] + [6] * 128)


def changed(data, place, byte):
    return data[:place] + bytes([byte]) + data[place + 1 :]


def answers():
    """The two lines of each refusal, by its number: what failed, and what to do."""
    with open(os.path.join(ROOT, "answers.txt"), encoding="ascii") as lines:
        rows = [line.rstrip("\n").split(" | ") for line in lines if not line.startswith("#")]
    return {int(row[0]): (f"walnut: {row[1]}\n", f"walnut: {row[2]}\n") for row in rows if len(row) == 3}


def in_order(name, said, texts, about):
    """Fails unless the message says first what failed, then which file, then what to do."""
    failed, to_do = texts
    if not said.index(failed) < said.index(about) < said.index(to_do):
        fail(f"{name}: the order is not what failed, which file, what to do: {said!r}")


# ---- a copy of the tree with other programs


# what an `rt` of the tests does for `rt run NAME`, in the folder of the crate: the program is made
MADE = 'if [ "$1" = run ]; then mkdir -p out && cp "../../made/$2" out/; fi'


def tree(folder, programs):
    """Makes a copy of ./walnut with other programs, which use no crate, and an `rt` that proves nothing. `programs` is
    a folder, or the text of a shell script for each name. Returns the options with which `run` starts the copy."""
    folder = os.path.abspath(folder)
    os.makedirs(os.path.join(folder, "target", "bin"))
    os.makedirs(os.path.join(folder, "made"))
    os.makedirs(os.path.join(folder, "path"))
    for name in ("walnut", "desk", "answers.txt"):
        shutil.copy(os.path.join(ROOT, name), folder)
    listed = "".join(["# Programs that ./walnut runs\n", *(f"{name}:\n" for name in PROGRAMS)])
    put(os.path.join(folder, "crates.txt"), listed.encode())
    shutil.copytree(os.path.join(ROOT, "desk_tools"), os.path.join(folder, "desk_tools"))
    script(os.path.join(folder, "path", "rt"), MADE)
    for name in PROGRAMS:
        os.makedirs(os.path.join(folder, "crates", name))
        place = os.path.join(folder, "made", name)
        if isinstance(programs, str):
            shutil.copy(os.path.join(programs, name), place)
        else:
            script(place, programs.get(name, "exit 0"))
        shutil.copy(place, os.path.join(folder, "target", "bin"))
    environment = {**os.environ, "PATH": os.path.join(folder, "path") + ":" + os.environ["PATH"]}
    return {"walnut": os.path.join(folder, "walnut"), "env": environment}


def script(path, text):
    with open(path, "w", encoding="ascii") as file:
        file.write("#!/bin/sh\n" + text + "\n")
    os.chmod(path, 0o755)
