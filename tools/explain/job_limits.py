"""Help on J8: what in a job passes a limit."""

from limits import (
    MOST_COPIES,
    MOST_GUESTS,
    MOST_MESSAGE,
    MOST_POSTS,
    MOST_RINGS,
    MOST_STORES,
    MOST_STRETCHES,
    MOST_SWAPS,
    MOST_VERSIONS,
    MOST_WORDS,
    MOST_WORKERS,
    grouped,
)

from .job_paths import at_path, list_in, shown
from .rings import past_a_limit_of_a_ring

# What each limit says, and how it is kept.
LIMITS = {
    "length": ("A message has at most %s bytes." % grouped(MOST_MESSAGE), "validate the messages of a buffer one by one."),
    "stretches": ("A message has at most %d stretches, empty ones too." % MOST_STRETCHES, "take the empty ones out, and join those that lie behind each other."),
    "value": ("What is written of a value has at most %s bytes." % grouped(MOST_MESSAGE), "write the message in parts, each validated alone."),
    "stores": ("A job has at most %s stores, a host job as many of all its guests." % grouped(MOST_STORES), "give several jobs."),
    "workers": ("A host job has 1 to %d workers." % MOST_WORKERS, 'write `"workers":2`.'),
    "guests": ("A host job has 1 to %d guests." % MOST_GUESTS, 'write at least one: `"guests":[{"script":[["post",0,4]]}]`.'),
    "rings": ("A job has at most %d rings." % MOST_RINGS, "give several jobs."),
    "swaps": ("A job has at most %d swaps, so %d versions with its own module." % (MOST_SWAPS, MOST_VERSIONS), "leave some out."),
    "posts": ("All guests post at most %s messages." % grouped(MOST_POSTS), "give several jobs."),
    "words": ("All messages that are posted have at most %s words, each counted as often as it is posted." % grouped(MOST_WORDS), "give several jobs."),
    "copies": ("The copy buffers of all posts and takes have at most %s bytes." % grouped(MOST_COPIES), "give several jobs, or the buffers less room."),
}
MESSAGE = ("A message that is posted has at most %s bytes, and %d stretches." % (grouped(MOST_MESSAGE), MOST_STRETCHES), "post it in parts, each validated alone.")
COUNTED = ("stretches", "stores", "guests", "rings", "swaps")


def messages_of(job):
    """How many messages a host job's guests post, and how many takes its rings have."""
    steps = [step for guest in list_in(job.value, "guests") for step in list_in(guest, "script")]
    takes = [ring.get("takes") for ring in list_in(job.value, "rings") if isinstance(ring, dict)]
    return sum(isinstance(step, list) and step[:1] == ["post"] for step in steps), sum(count for count in takes if type(count) is int)


def rooms_counted(job):
    """How the total of copies comes about; none where the job doesn't tell its entry point."""
    if job.entry is None:
        return []
    room, (posts, takes) = sum(room for _, room in job.entry.buffers), messages_of(job)
    said = "The buffers of `%s` have room for %d bytes together; the job has %d posts and %d takes, so %d bytes."
    return [said % (job.entry.name, room, posts, takes, room * (posts + takes))]


def counted(job, path):
    """What of the limited thing the job has."""
    if path == "copies":
        return rooms_counted(job)
    lines, (there, value) = [], at_path(job.value, path)
    if there and path != "value":
        lines.append("The job has %s." % (len(value) if isinstance(value, list) and path in COUNTED else shown(value)))
    if path == "words" and job.value.get("rings"):
        lines.append("Each take of a ring counts for `most` / 8, rounded down, and 2.")
    return lines


def past_a_limit(job, path):
    if path.startswith("rings["):
        return past_a_limit_of_a_ring(job, path)
    said, mend = LIMITS.get(path, MESSAGE)
    return [said, *(counted(job, path) if isinstance(job.value, dict) else []), "mend: " + mend]
