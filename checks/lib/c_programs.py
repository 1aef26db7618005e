"""The programs in C over the static libraries: how they are built and run, and how rows are counted."""

import os
import re
import subprocess

from program import TOP

CAPI = os.path.join(TOP, "capi")
EXAMPLES = os.path.join(CAPI, "examples")
FLAGS = ["-std=gnu11", "-Wall", "-Wextra", "-Werror", "-I" + CAPI]
WAYS = {"-O2": ["-O2"], "AddressSanitizer": ["-O1", "-g", "-fsanitize=address,undefined", "-fno-sanitize-recover=all"]}
# What a library may ask of the program that links it.
NEEDED = {"memcpy", "memmove", "memset", "rattle_alloc", "rattle_realloc", "rattle_dealloc"}
LIMIT = 300
MOST_SHOWN = 10


class Tally:
    """Rows that were tried, those that were wrong, and what was skipped."""

    def __init__(self, name):
        self.name, self.rows, self.wrong, self.skipped = name, 0, 0, []

    def expect(self, name, is_good, found):
        self.rows += 1
        if not is_good:
            self.wrong += 1
            if self.wrong <= MOST_SHOWN:
                print("%s: %s: %s" % (self.name, name, found))

    def status(self):
        """Says what was counted; the status of the check."""
        skipped = ", skipped: " + " ".join(self.skipped) if self.skipped else ""
        print("%s: rows %d, wrong %d%s" % (self.name, self.rows, self.wrong, skipped))
        return 1 if self.wrong or not self.rows else 0


def ended(words, **more):
    """The status of a command, and what it wrote."""
    run = subprocess.run(words, stdout=subprocess.PIPE, stderr=subprocess.STDOUT, check=False, timeout=LIMIT, **more)
    return run.returncode, run.stdout.decode(errors="replace")


def library_of(name):
    return os.path.join(TOP, "crates", name, "out/lib%s.a" % name)


def symbols(tally, library, names):
    """The names that a library needs, those that it offers, and its sections: no more than docs/c-library.md says."""
    status, text = ended(["nm", library])
    found = re.findall(r"^[0-9a-f ]{16} ([A-Za-z]) (\S+)$", text, re.M)
    needed = {name for kind, name in found if kind == "U"}
    offered = {name for kind, name in found if kind == "T" and name.startswith("td_c_")}
    status_of_sections, sections = ended(["readelf", "-S", "-W", library])
    more = [word for word in (".tdata", ".tbss", ".init_array", ".fini_array", ".ctors") if word in sections]
    name = os.path.basename(library)
    tally.expect(name + ": no storage of a thread, nothing that runs by itself", status_of_sections == 0 and not more, more)
    tally.expect(name + ": names that are needed", status == 0 and needed <= NEEDED, sorted(needed - NEEDED))
    tally.expect(name + ": names that are offered", offered == names, sorted(offered ^ names))


def built(tally, compiler, way, source, target, libraries):
    """Builds a program, and answers its path."""
    words = [compiler, *FLAGS, *WAYS[way], "-o", target, source, *libraries, "-lpthread"]
    status, text = ended(words)
    tally.expect("%s %s: %s is built" % (compiler, way, os.path.basename(source)), status == 0 and not text, text)
    return target
