"""C of images, by the library: capi/examples/write_c.c over libtd_c_pack.a."""

import os
import subprocess

import static_library
from c_programs import CAPI, EXAMPLES, FLAGS, LIMIT, library_of

LIBRARY = library_of("td_c_pack")


class ImageWriter:
    """Writes images as C, by a program that it builds into a folder."""

    def __init__(self, folder, compiler):
        if not os.path.exists(LIBRARY):
            static_library.build("td_c_pack")
        self.folder, self.program = folder, os.path.join(folder, "write_c")
        words = [compiler, *FLAGS, "-O2", "-o", self.program, os.path.join(EXAMPLES, "write_c.c"), LIBRARY, os.path.join(CAPI, "heap.c")]
        subprocess.run(words, check=True, timeout=LIMIT)

    def ended(self, name, image, *word):
        """The status of the program for an image, and its two outputs; without a word it writes NAME.c, NAME.h and NAME_parts.c of its folder."""
        path = os.path.join(self.folder, name + ".image")
        with open(path, "wb") as file:
            file.write(image)
        target = name if word else os.path.join(self.folder, name)
        ended = subprocess.run([self.program, path, target, *word], capture_output=True, check=False, timeout=LIMIT)
        return ended.returncode, ended.stdout, ended.stderr

    def complaint(self, name, image):
        """Writes the three files; the line that refuses the image, or an empty text."""
        status, out, err = self.ended(name, image)
        return "" if (status, out, err) == (0, b"", b"") else (out + err).decode().strip() or "status %d" % status
