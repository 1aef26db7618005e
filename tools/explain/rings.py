"""Help on the rings of a host job: those past the buffer (J7), and past a limit (J8)."""

from limits import MOST_ENTRIES, MOST_MESSAGE, MOST_TAKES, grouped

from .job_paths import at_path

RING_FIELDS = ("base", "entries", "most", "takes")
RING = '{"base":0,"entries":2,"most":8,"takes":2}'


def ring_at(job, path):
    """A ring whose fields are numbers; None where none stands at the path."""
    there, ring = at_path(job.value, path) if isinstance(job.value, dict) else (False, None)
    is_ring = there and isinstance(ring, dict) and all(type(ring.get(name)) is int for name in RING_FIELDS)
    return ring if is_ring else None


def past_ring(job, path):
    lines = ["The ring of `%s` passes the end of the buffer, whose last word is filled with zero bytes: it has a word for its count, and two for each entry." % path]
    ring = ring_at(job, path)
    if ring and isinstance(job.value.get("buffer"), str):
        words = -(-(len(job.value["buffer"]) // 2) // 8)
        end = ring["base"] + 1 + 2 * ring["entries"]
        lines.append("It begins at word %d and has %d entries, so it ends before word %d; the buffer has %d words." % (ring["base"], ring["entries"], end, words))
    return lines + ["mend: make the buffer longer, or the ring shorter, or let it begin at a lower word."]


def past_a_limit_of_a_ring(job, path):
    said = "A ring has 1 to %s entries, messages of at most %s bytes, and at most %s takes."
    lines = [said % (grouped(MOST_ENTRIES), grouped(MOST_MESSAGE), grouped(MOST_TAKES))]
    ring = ring_at(job, path)
    if ring:
        lines.append("This one has %d entries, messages of at most %d bytes, and %d takes." % (ring["entries"], ring["most"], ring["takes"]))
    return lines + ["mend: write it within these: `%s`." % RING]
