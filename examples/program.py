"""Runs the program, for the scripts beside this file: PESP, else `pesp` in their folder, else in the folder above it, else that
of the path."""
import os
import pathlib
import subprocess
import sys

HERE = pathlib.Path(__file__).resolve().parent


def program():
    """The program's path, or its name."""
    near = (HERE / "pesp", HERE.parent / "pesp")
    return os.environ.get("PESP") or next((str(path) for path in near if path.is_file() and os.access(path, os.X_OK)), "pesp")


def fail(fault):
    """Ends the script with status 1, and says why in a line."""
    sys.exit(f"{pathlib.Path(sys.argv[0]).name}: {fault}")


def data_of(path):
    """What a file holds; of standard input where the path is `-`."""
    try:
        return sys.stdin.buffer.read() if path == "-" else pathlib.Path(path).read_bytes()
    except OSError as fault:
        return fail(f"{path}: {fault.strerror}")


def answer(words, instance, given):
    """What the program writes for these words and an instance, with a file on standard input. Where it tells a fault, the script
    ends; what it says beside an answer is passed on, but for what `./pesp` says of itself."""
    data_of(instance)
    try:
        done = subprocess.run([program(), *words, instance], input=data_of(given), capture_output=True, check=False)
    except OSError as fault:
        fail(f"{program()}: {fault.strerror}; PESP names the program")
    told = [line for line in done.stderr.decode("utf-8", "replace").splitlines() if not line.startswith("pesp: ")]
    if done.returncode:
        fail(f"{instance}, {given}: {' '.join(told)}")
    print(*told, sep="\n", end="\n" if told else "", file=sys.stderr)
    return done.stdout.decode("utf-8")
