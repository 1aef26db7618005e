"""Instructions of one function, counted by callgrind."""

import os
import re
import subprocess
import sys


def counted(folder, words, text, function):
    """What a run counts in a function, at its outermost call, with all that this calls."""
    out = os.path.join(folder, "callgrind")
    callgrind = ["valgrind", "--tool=callgrind", "--callgrind-out-file=" + out]
    subprocess.run([*callgrind, *words], input=text, stdout=subprocess.DEVNULL, stderr=subprocess.DEVNULL, check=True)
    annotate = ["callgrind_annotate", "--inclusive=yes", "--threshold=100", out]
    said = subprocess.run(annotate, stdout=subprocess.PIPE, check=True, text=True).stdout
    # (a call below the outermost one has the name with '2 behind it)
    found = re.findall(r"^\s*([0-9,]+) .*\b%s\b(?!.*'2 )" % function, said, re.M)
    if len(found) != 1:
        sys.exit(f"{words[0]} has {len(found)} functions {function}")
    return int(found[0].replace(",", ""))
