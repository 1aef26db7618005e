"""How much an input, a text, a message, a job and an image hold at most: the one table of the scripts. docs/language/limits.md has the
limits for readers, and the sources of crates/ have constants of their own; checks/limits compares all three. The names are those of
docs/language/limits.md in short."""

# The input of a command, in bytes: Z1.
MOST_INPUT = 4_194_304

# A text: P2 for the first two, Y2 for the room of a copy buffer in bytes, else X1.
MOST_OPERATORS = 256
MOST_BRACES = 16
MOST_DEFINITIONS = 4_000
MOST_FIELDS = 256
MOST_CASES = 256
MOST_PARAMETERS = 16
MOST_NODES = 60_000
MOST_ACTION_NODES = 20_000
MOST_CELLS = 64
MOST_ROOM = 65_536
MOST_DEPTH = 32
MOST_WEIGHT = 2**40
# A constant size is below this, and a size past it counts as none.
SIZE_CAP = 2**32

# A message, in bytes, and its stretches. What is written of a value, and a message of a ring, have as many bytes.
MOST_MESSAGE = 1_048_576
MOST_STRETCHES = 64

# A job: J8. The stores are those of a run job, and those of all guests of a host job. The words are those of all messages that are
# posted or taken, the copies the bytes of the copy buffers of all posts and takes. A job of swaps has a version more than swaps.
MOST_STORES = 65_536
MOST_GUESTS = 16
MOST_WORKERS = 16
MOST_POSTS = 4_096
MOST_WORDS = 1_048_576
MOST_COPIES = 16_777_216
MOST_RINGS = 16
MOST_ENTRIES = 1_024
MOST_TAKES = 4_096
MOST_SWAPS = 16
MOST_VERSIONS = 17

# The number of `td bench`.
MOST_BENCHED = 10_000

# An image. Each version keeps its own, whatever the limits of a text become: those of version 3, and of version 1 where they differ.
# Rows are those of a table, and the numbers of all sets together.
IMAGE_ROWS = 1_048_576
FIRST_IMAGE_ROWS = 65_536
IMAGE_INSTRUCTIONS = 4_194_304
FIRST_IMAGE_INSTRUCTIONS = 1_048_576
IMAGE_CELLS = 64
IMAGE_BUFFERS = 16
# Numbers of a cell map: of cells, and from version 3 on of buffers too.
IMAGE_MAPPED = IMAGE_CELLS + IMAGE_BUFFERS
IMAGE_ROOM = 65_536
IMAGE_PARAMETERS = 16
IMAGE_REGISTERS = 65_535


def grouped(number: int) -> str:
    """A number as pages write it, with a comma before each three digits."""
    return format(number, ",")
