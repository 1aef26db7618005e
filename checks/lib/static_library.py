"""Builds a crate that is a static library over the libraries that stand in the tree. The crate itself is proved by this call, too.

usage: python3 checks/lib/static_library.py NAME [TARGET]

It says where the library is: crates/NAME/out/libNAME.a; for a TARGET, as aarch64-unknown-linux-gnu, crates/NAME/out/TARGET/libNAME.a.

`rt lib` would prove each library below anew after `rt ci`, which leaves no mark beside them of what they were made from. `rt help` has no
word to build over the libraries as they are, so this calls the toolchain's module `rtlib` by names that are its own (`crates_below`,
`below`, `compile`): another version may have others, and then COMPILE is the one place to change."""

import os
import subprocess
import sys

from program import TOP

# The kit's own way from a line of crates.txt to a call of its compiler.
COMPILE = """
import os, sys
sys.path.insert(0, os.path.join(sys.argv[1], "bin"))
import rtlib
os.chdir(sys.argv[2])
crate = next(it for it in rtlib.crates_below(sys.argv[2]) if it.name == sys.argv[3])
lacking = [it.name for it in crate.below() if not os.path.isfile(it.rlib + "/format")]
if lacking:
    sys.exit("not built yet: " + " ".join(lacking))
target = sys.argv[4]
flags = ["--target", target, "--backend", "llvm"] if target else []
sys.exit(crate.compile(["--jobs", "1", *flags], os.path.join("out", target, "lib" + crate.name + ".a")))
"""


# Seconds for one crate: its proof is part of the call, and a slow machine that does other work beside may want ten minutes for it.
LIMIT = 1800


def build(name, target=""):
    """Builds the library for this machine, or for a target, and answers its path; else the program ends with what was said."""
    folder = os.path.join(TOP, "crates", name)
    library = os.path.join(folder, "out", target, "lib%s.a" % name)
    os.makedirs(os.path.dirname(library), exist_ok=True)
    try:
        page = subprocess.run(["rt", "doc"], stdout=subprocess.PIPE, check=True, timeout=LIMIT).stdout.decode().strip()
    except (OSError, subprocess.SubprocessError) as error:
        sys.exit("static library: rt isn't there: %s" % error)
    words = [sys.executable, "-c", COMPILE, os.path.dirname(page), TOP, name, target]
    run = subprocess.run(words, stdout=subprocess.PIPE, stderr=subprocess.STDOUT, check=False, timeout=LIMIT)
    if run.returncode or not os.path.isfile(library):
        sys.exit("static library: %s isn't built: %s" % (name, run.stdout.decode(errors="replace")[-500:]))
    return library


if __name__ == "__main__":
    if not 2 <= len(sys.argv) <= 3:
        print(__doc__.split("\n\n")[1], file=sys.stderr)
        sys.exit(2)
    print(build(*sys.argv[1:]))
