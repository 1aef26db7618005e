"""Help on J9: texts that are to take the place of a host job's module."""

from reference.errors import ModuleError
from reference.modules import module_of

from ..places import place_of
from .entry_points import buffers_wanted, cells_wanted, values_wanted
from .job_paths import at_path
from .spelling import quoted

MEND = "mend: give a module that `td check` accepts, with an entry point of the same name, arguments, cells and copy buffers; what lies between may differ."


def first_other(old, new):
    """The first place at which two lists differ, and what stands there: a text, `nothing` past an end."""
    at = next((at for at, (one, other) in enumerate(zip(old, new)) if one != other), min(len(old), len(new)))
    return [items[at] if at < len(items) else "nothing" for items in (old, new)]


def not_the_same(made, other):
    """Which argument, cell or copy buffer of a swap's entry point isn't that of the job's module."""
    for what, list_of in (("argument", values_wanted), ("cell", cells_wanted), ("copy buffer", buffers_wanted)):
        wanted, found = list_of(made), list_of(other)
        if wanted != found:
            return "Its `%s` has another %s: the job's module has %s, this text %s." % (made.name, what, *first_other(wanted, found))
    return "It can take the place of the job's module, by a second reading."


def no_swap(job, path):
    lines = ["The text of `%s` can't take the place of the job's module." % path]
    there, text = at_path(job.value, path) if isinstance(job.value, dict) else (False, None)
    if not there or not isinstance(text, str) or job.entry is None:
        return lines + [MEND]
    try:
        data = text.encode()
        known = module_of(data)[1]
    except UnicodeEncodeError:
        return lines + [MEND]
    except ModuleError as error:
        return lines + ["`td check` refuses it: error %s %s %s." % (error.code, place_of(data, error.at), error.words), "mend: put it right there; td-why tells more of the text alone."]
    entries = [known.types[number] for number in known.entries]
    other = next((made for made in entries if made.name == job.entry.name), None)
    if other is None:
        return lines + ["Its entry points: %s; the job's is `%s`." % (quoted(made.name for made in entries) or "none", job.entry.name), MEND]
    return lines + [not_the_same(job.entry, other), MEND]
