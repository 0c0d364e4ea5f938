"""What the scripts share that try how `plan` keeps what it has."""
import os
import subprocess
import sys

TOP = os.path.dirname(os.path.dirname(os.path.realpath(__file__)))
PESP = os.environ.get("PESP", os.path.join(TOP, "crates", "pesp", "out", "pesp"))


def fail(words):
    """Ends the trial: something isn't as it has to be."""
    sys.exit(f"{os.path.basename(sys.argv[0])}: {words}")


def run(words, **more):
    """A command that has ended, with what it printed."""
    return subprocess.run(words, capture_output=True, text=True, check=False, **more)


def draw(kind, rows, seed, to):
    """An instance that a script of this folder draws."""
    with open(to, "w", encoding="ascii") as text:
        subprocess.run([os.path.join(TOP, "bench", kind), str(rows), str(seed)], stdout=text, check=True)


def standing(file, instance):
    """Bound and cost of the certificate in the file, which the checker accepts; 0 and None where there is no file."""
    if not os.path.exists(file):
        return 0, None
    with open(file, encoding="ascii") as text:
        judged = run([PESP, "check", "--sharp", instance], stdin=text)
    if judged.returncode != 0 or not judged.stdout.startswith("accepted"):
        fail(f"what is kept isn't accepted: {judged.stdout}{judged.stderr}")
    with open(file, encoding="ascii") as text:
        words = next(line.split() for line in text if line.startswith("answer "))
    if words[1] == "optimal":
        return int(words[2]), int(words[2])
    if words[1] == "open":
        return int(words[2]), None if words[3] == "none" else int(words[3])
    return fail(f"an answer that can't be: {words}")


def compare(before, after):
    """Ends the trial where the second standing is worse than the first."""
    if after[0] < before[0]:
        fail(f"the bound fell from {before[0]} to {after[0]}")
    if before[1] is not None and (after[1] is None or after[1] > before[1]):
        fail(f"the cost rose from {before[1]} to {after[1]}")
