"""Paths of a job, and what stands at one."""

import json
import re

from ..places import escaped

STEP = re.compile(r"\[(\d+)\]|([^.\[\]]+)")


def form_of(path):
    return re.sub(r"\[\d+\]", "[i]", path)


def at_path(job, path):
    """What stands in a job at a path; (False, None) where nothing does."""
    value = job
    for index, name in STEP.findall(path):
        try:
            value = value[int(index)] if index else value[name]
        except (KeyError, IndexError, TypeError, ValueError):
            return False, None
    return True, value


def list_in(value, name):
    """The list that an object has in this field; an empty one where it has none."""
    found = value.get(name) if isinstance(value, dict) else None
    return found if isinstance(found, list) else []


def shown(value):
    """A value of a job, shortened."""
    text = json.dumps(value)
    return escaped((text if len(text) <= 60 else text[:57] + " ..").encode())
