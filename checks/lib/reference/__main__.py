"""Answers an input as `td check`, `td tidy` and `td run` do, by the second reading of the language: no program, no proof.

usage: python3 checks/lib/reference check|tidy < MODULE
       python3 checks/lib/reference run < INPUT
       python3 checks/lib/reference host REPORT < INPUT

The exit status, and what is written to both outputs, are td's; 2 where the words are no such command, or REPORT can't be read. `host`
serves nobody: it judges whether a report can be that of the input. The status is 0 where it can, and else 3, with what is wrong on
standard error.
"""

import os
import signal
import sys

sys.dont_write_bytecode = True
sys.path.insert(0, os.path.dirname(os.path.dirname(os.path.abspath(__file__))))
from reference.answers import answer, hosted, with_room  # noqa: E402


def report_in(path):
    with open(path, "rb") as file:
        return file.read()


def main():
    for number in (signal.SIGINT, signal.SIGPIPE):
        signal.signal(number, signal.SIG_DFL)
    words = sys.argv[1:]
    is_host = len(words) == 2 and words[0] == "host"
    if words not in (["check"], ["tidy"], ["run"]) and not is_host:
        sys.stderr.write(__doc__[__doc__.index("usage: ") : __doc__.index("\n\nThe exit")] + "\n")
        return 2
    try:
        told = report_in(words[1]) if is_host else None
    except OSError:
        sys.stderr.write("reference: can't read the file '%s'\n" % words[1])
        return 2
    text = sys.stdin.buffer.read()
    status, report, line = with_room(lambda: hosted(text, told) if is_host else answer(text, words[0]))
    sys.stdout.buffer.write(report)
    sys.stderr.buffer.write(line)
    return status


if __name__ == "__main__":
    sys.exit(main())
