"""Shows files as text, makes files from text, and draws braids and how words spread. ./walnut calls this program and
checks its arguments.

Every answer comes from the proved library, through its binding. The texts and pictures are not proved.
Exit status: 0 done; 4 a refusal; 1 a file could not be read or written; 3 the library could not be loaded.
"""

import os
import sys

ROOT = os.path.dirname(os.path.dirname(os.path.dirname(os.path.abspath(__file__))))
sys.path.insert(0, os.path.join(ROOT, "bindings", "python"))

try:
    import walnut
except OSError as error:
    print(f"walnut: the library could not be loaded: {error}; run './library' to build it", file=sys.stderr)
    sys.exit(3)

import draw
import show
import spell
import spread
from files import Refused


def say(text):
    print(f"walnut: {text}", file=sys.stderr)


def to_do(answer):
    """What a person can do about an answer, from answers.txt."""
    with open(os.path.join(ROOT, "answers.txt"), encoding="ascii") as lines:
        rows = [line.strip().split(" | ") for line in lines if not line.startswith("#")]
    return next((row[2] for row in rows if row[0] == str(answer) and len(row) == 3), "")


def main(verb, *arguments):
    verbs = {"show": show.main, "spell": spell.main, "draw": draw.main, "spread": spread.main}
    try:
        verbs[verb](*arguments)
        sys.stdout.flush()
        return 0
    except Refused as refused:
        if refused.answer:
            print(f"answer {refused.answer}", flush=True)
            say(walnut.text(refused.answer))
        for line in refused.lines:
            say(line)
        if refused.answer:
            say(to_do(refused.answer))
        return 4
    except OSError as error:
        # Python must not write to a standard output that was closed.
        sys.stdout = None
        say(f"{error.filename or 'standard output'}: {error.strerror}")
        say("the file named above could not be read or written: correct its name, choose another place, or make room")
        return 1


if __name__ == "__main__":
    sys.exit(main(*sys.argv[1:]))
