"""Jobs of examples/ and formats/ whose report needs no stores, and images of texts: for programs over the library for C."""

import glob
import json
import os
import subprocess

from program import PROGRAM, SECONDS, TOP

FIELDS = {"entry", "args", "bytes", "length", "stretches"}


def image_of(folder, text):
    """The image of a module, as `td pack` writes it."""
    path = os.path.join(folder, os.path.relpath(text, TOP).replace("/", "-") + ".image")
    if not os.path.exists(path):
        with open(text, "rb") as module, open(path, "wb") as image:
            subprocess.run([PROGRAM, "pack"], stdin=module, stdout=image, check=True, timeout=SECONDS)
    return path


def jobs():
    """Text, job and report of each job without stores."""
    for path in sorted(glob.glob(TOP + "/examples/*/*.json") + glob.glob(TOP + "/formats/*/*.json")):
        folder, report = os.path.dirname(path), path[: -len("json")] + "report"
        texts = glob.glob(folder + "/*.3d")
        if len(texts) != 1 or not os.path.exists(report):
            continue
        with open(path, encoding="utf-8") as file, open(report, encoding="utf-8") as lines:
            try:
                job = json.load(file)
            except ValueError:
                continue
            wanted = lines.read()
        if isinstance(job, dict) and set(job) <= FIELDS and wanted.startswith(("accept", "reject")):
            yield texts[0], job, wanted
