"""The proved programs: built when they are missing or older than what they are made of, and run."""

import contextlib
import os
import shutil
import subprocess
import tempfile
import time

ROOT = os.path.dirname(os.path.dirname(os.path.realpath(__file__)))


class CannotRun(Exception):
    """There is no answer, for the reason given."""


def put_error(line):
    """Bytes to standard error. If they cannot be written there is nowhere to say so."""
    try:
        os.write(2, line)
    except OSError:
        pass


def say(words):
    put_error(f"zumbeiry: {words}\n".encode(errors="backslashreplace"))


def put_lines(lines, error=False):
    """Lines to standard output, or to standard error."""
    if error:
        put_error("".join(f"{line}\n" for line in lines).encode(errors="backslashreplace"))
    else:
        print("\n".join(lines), flush=True)


def reason(error):
    """An operating system's error in words."""
    return error.strerror or str(error)


def crates_of(name):
    """The crate and those of the repository that it depends on, by crates.txt."""
    listed = {}
    with open(os.path.join(ROOT, "crates.txt"), encoding="utf-8") as lines:
        for line in lines:
            crate, colon, depends = line.split("#")[0].partition(":")
            if colon:
                listed[crate.split()[0]] = depends.split()
    if name not in listed:
        raise CannotRun(f"crates.txt does not list {name}")
    found = [name]
    for crate in found:
        found += [other for other in listed[crate] if other in listed and other not in found]
    return found


def newest(name):
    """When something that the program is made of was last changed."""
    times = [os.stat(os.path.join(ROOT, "crates.txt")).st_mtime]
    for crate in crates_of(name):
        for part in ("src", "specs", "proofs"):
            for folder, _, files in os.walk(os.path.join(ROOT, "crates", crate, part)):
                times += [os.lstat(os.path.join(folder, file)).st_mtime for file in [".", *files]]
    return max(times)


def prove(name):
    """Has rt prove and build the program, and shows what it says of each crate. It runs it too, on nothing."""
    if shutil.which("rt") is None:
        raise CannotRun(f"{name} has to be built, and there is no rt, the Rattle kit's command, in PATH")
    rt = subprocess.Popen(
        ["rt", "run"],
        cwd=os.path.join(ROOT, "crates", name),
        stdin=subprocess.DEVNULL,
        stdout=subprocess.PIPE,
        stderr=subprocess.STDOUT,
    )
    say(f"proving and building {name} with rt: some minutes the first time, then only after a change")
    with rt:
        for line in rt.stdout:
            if line.startswith(b"rt: "):
                put_error(line)
    return rt.returncode


def program(name):
    """The path of the proved program of that name, built if need be."""
    path = os.path.join(ROOT, "target", "bin", name)
    made = os.path.join(ROOT, "crates", name, "out", name)
    try:
        if os.path.exists(path) and os.stat(path).st_mtime >= newest(name):
            return path
        began = time.time()
        status = prove(name)
        if status == 0 and os.path.exists(made):
            os.makedirs(os.path.dirname(path), exist_ok=True)
            shutil.copy(made, f"{path}.new")
            # as old as what it was proved from, whatever changed meanwhile
            os.utime(f"{path}.new", (began, began))
            os.replace(f"{path}.new", path)
        elif os.path.exists(path):
            # a failure leaves it older than all
            os.utime(path, (0, 0))
    except OSError as error:
        raise CannotRun(f"{name} could not be built: {error.filename or 'rt'}: {reason(error)}") from None
    if status != 0:
        raise CannotRun(f"{name} was not built: 'rt run' in crates/{name} ended with {status}; run it there to see why")
    if not os.path.exists(made):
        raise CannotRun(f"rt run wrote no crates/{name}/out/{name}; remove crates/{name}/out and try again")
    return path


def run(path, *arguments, given=b""):
    """What the program writes, to standard output and to standard error, with the bytes given on its standard input."""
    name = os.path.basename(path)
    try:
        ended = subprocess.run([path, *arguments], input=given, capture_output=True)
    except OSError as error:
        raise CannotRun(f"target/bin/{name} does not run: {reason(error)}") from None
    if ended.returncode < 0:
        raise CannotRun(f"target/bin/{name} was ended by signal {-ended.returncode}")
    if ended.returncode > 0:
        raise CannotRun(f"target/bin/{name} ended with status {ended.returncode}")
    return ended.stdout, ended.stderr


def no_answer(name, err, gave="gave no answer"):
    """That the program of that name gave no answer, and what it told on standard error."""
    told = err.decode(errors="replace").partition("\n")[0][:200]
    return CannotRun(f"target/bin/{name} {gave}" + (told and f": {told}"))


def lend(given, lent):
    """The path of a temporary file with the bytes given, which has no name but this process's descriptor."""
    file = lent.enter_context(tempfile.TemporaryFile())
    file.write(given)
    file.flush()
    return f"/proc/{os.getpid()}/fd/{file.fileno()}"


def run_on(path, *arguments):
    """What the program writes that is called with these arguments. Those that are bytes are lent to it as files, of which none
    is left over, however this ends."""
    try:
        with contextlib.ExitStack() as lent:
            return run(path, *(lend(given, lent) if isinstance(given, bytes) else given for given in arguments))
    except OSError as error:
        raise CannotRun(f"a temporary file: {reason(error)}") from None
