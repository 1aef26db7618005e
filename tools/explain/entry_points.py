"""What a job gives an entry point, and what it gets back, in words."""

from reference.jobs import arguments_in


def values_wanted(made):
    return ["%s (%d bits)" % (parameter.name, parameter.bits) for parameter in arguments_in(made)]


def cells_wanted(made):
    return ["%s%s (%s)" % (name, "" if field is None else "." + field, "%d bits" % bits if bits else "a pointer, below 2^32") for name, field, bits in made.cells]


def buffers_wanted(made):
    return ["%s (room for %d bytes)" % buffer for buffer in made.buffers]
