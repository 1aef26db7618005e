"""Inputs that grow: for a size, the command's words, its input, and what is written (where nobody has worked that out, as the sums
of `bench` or the code of a long text, a function that tells whether it looks right)."""

import re

from limits import (
    MOST_BENCHED,
    MOST_DEFINITIONS,
    MOST_DEPTH,
    MOST_FIELDS,
    MOST_INPUT,
    MOST_MESSAGE,
    MOST_NODES,
    MOST_POSTS,
    MOST_STORES,
    MOST_WORDS,
)

# Elements of the arrays that are as large at each size, so that what grows is an element's type.
LEVELLED = 32_768
BY_CASE = 65_536
SMALL_MODULE = "entrypoint typedef struct _P { UINT16 x; UINT16BE y { y >= 3 }; } P;\n"
SMALL_JOB = '{"entry":"P","length":4,"bytes":"01000003"}\n'
SMALL_REPORT = "accept 4\nload 0 0000000003000001\n"


def zero_loads(words):
    return "".join("load %d %016x\n" % (word, 0) for word in range(words))


# ---- Messages.


def message(size, first, report):
    """A message of `size` zero bytes, as a struct of 256 refined numbers, the first of which is at least `first`.

    The struct has 2 KiB, so the validator reads no more of the message, whatever its size: what grows is the reading
    of the job and the making of the memory.
    """
    fields = ["UINT64 f%d { f%d >= %d };" % (i, i, first if i == 0 else 0) for i in range(MOST_FIELDS)]
    module = "entrypoint typedef struct _M { %s } M;\n" % " ".join(fields)
    job = '{"entry":"M","length":%d,"bytes":"%s"}\n' % (size, "00" * size)
    return "run", module + "%%\n" + job, report


def accepted_message(size):
    return message(size, 0, "accept %d\n" % (8 * MOST_FIELDS) + zero_loads(MOST_FIELDS))


def refused_message(size):
    return message(size, 1, "reject constraint 0\nframe M.f0 0\nload 0 %016x\n" % 0)


def array(types, field, report_of_words, content="00"):
    """A message of bytes that are all alike, the last of them 0, as one field that takes all of it."""

    def make(size):
        module = "%s entrypoint typedef struct _A(UINT32 n) { %s } A;\n" % (types, field)
        job = '{"entry":"A","args":[%d],"length":%d,"bytes":"%s00"}\n' % (size, size, content * (size - 1))
        return "run", module + "%%\n" + job, "accept %d\n" % size + report_of_words(size)

    return make


def nothing_loaded(_):
    return ""


def all_zeros_loaded(size):
    return zero_loads(size // 8)


def all_ones_loaded(size):
    words = ["0101010101010101"] * (size // 8 - 1) + ["0001010101010101"]
    return "".join("load %d %s\n" % load for load in enumerate(words))


BYTE = "typedef struct _I { UINT8 x { x == 0 }; } I;"
PAIR = "typedef struct _I { UINT32 a; UINT32 b; } I;"
ANY = "typedef struct _I { UINT64 x { true }; } I;"
WIDE = "typedef struct _I { UINT64 x { x == 0 }; } I;"
VARIABLE = "typedef struct _I { UINT8 n { n <= 3 }; UINT8 d[n]; } I;"
CHAINED = "typedef struct _I { UINT8 f0; %s } I;" % " ".join(
    "UINT8 f%d { f%d >= f%d };" % (i, i, i - 1) for i in range(1, MOST_FIELDS)
)


# ---- Texts.


def after(make_filling, size):
    """An input of `size` bytes in all, nearly all of it the text that make_filling gives for a number of bytes."""
    rest = SMALL_MODULE + "%%\n" + SMALL_JOB
    return "run", make_filling(size - len(rest)) + rest, SMALL_REPORT


def one_comment(size):
    return after(lambda count: "/*" + "c" * (count - 5) + "*/\n", size)


def many_comments(size):
    """Comments of five bytes, and spaces for what is left."""
    return after(lambda count: "/*c*/" * (count // 5) + " " * (count % 5), size)


def spaces(size):
    return after(lambda count: " " * (count - 1) + "\n", size)


def stores(count):
    """`count` stores to the one word that is loaded. The last one counts, and all of them are alike."""
    listed = ",".join(['[0,0,"ffffffffffffffff"]'] * count)
    job = SMALL_JOB.replace("}", ',"stores":[%s]}' % listed)
    return "run", SMALL_MODULE + "%%\n" + job, "accept 4\nload 0 ffffffffffffffff\n"


def stores_to_words(order):
    """`count` stores, each to another word, and each word is loaded once its store came. `order` gives them their order."""

    def make(count):
        listed = ",".join('[%d,%d,"%016x"]' % (place, place, place) for place in order(range(count)))
        module = "%s entrypoint typedef struct _A(UINT32 n) { I a[:byte-size n]; } A;\n" % ANY
        size = 8 * count
        job = '{"entry":"A","args":[%d],"length":%d,"bytes":"","stores":[%s]}\n' % (size, size, listed)
        job = job.replace('"bytes":""', '"bytes":"%s"' % ("00" * size))
        loads = "".join("load %d %s\n" % (place, place.to_bytes(8, "little").hex()) for place in range(count))
        return "run", module + "%%\n" + job, "accept %d\n" % size + loads

    return make


def levels_of_types(levels):
    """An array of 32,768 elements, whose type holds a type and a tested byte, and so on: so many levels with the array's own."""
    found = ["typedef struct _T0 { UINT8 a { a == 0 }; } T0;"]
    found += ["typedef struct _T%d { T%d inner; UINT8 a { a == 0 }; } T%d;" % (place, place - 1, place) for place in range(1, levels - 1)]
    size = (levels - 1) * LEVELLED
    return array(" ".join(found), "T%d a[:byte-size n];" % (levels - 2), all_zeros_loaded)(size)


def trace_of_levels(levels):
    """As many structs in each other, of which the innermost is wrong: a frame for each. The message is short, so what grows is
    the text and the trace."""
    found = ["typedef struct _T0 { UINT8 a { a == 1 }; } T0;"]
    found += ["typedef struct _T%d { T%d a; } T%d;" % (place, place - 1, place) for place in range(1, levels - 1)]
    found += ["entrypoint typedef struct _T%d { T%d a; } T%d;\n" % (levels - 1, levels - 2, levels - 1)]
    job = '{"entry":"T%d","length":1,"bytes":"00"}\n' % (levels - 1)
    frames = "".join("frame T%d.a 0\n" % place for place in range(levels))
    return "run", "\n".join(found) + "%%\n" + job, "reject constraint 0\n" + frames + "load 0 0000000000000000\n"


def elements_by_case(count):
    """An array of 65,536 elements of two bytes, of which each has the last of so many cases."""
    cases = " ".join("case %d: UINT8 f%d { f%d < 9 };" % (place, place, place) for place in range(count))
    types = "casetype _C(UINT8 t) { switch (t) { %s } } C; typedef struct _I { UINT8 t; C(t) c; } I;" % cases
    element = "%02x00" % (count - 1)
    loads = "".join("load %d %s\n" % (word, ("00%02x" % (count - 1)) * 4) for word in range(2 * BY_CASE // 8))
    module = "%s entrypoint typedef struct _A(UINT32 n) { I a[:byte-size n]; } A;\n" % types
    job = '{"entry":"A","args":[%d],"length":%d,"bytes":"%s"}\n' % (2 * BY_CASE, 2 * BY_CASE, element * BY_CASE)
    return "run", module + "%%\n" + job, "accept %d\n" % (2 * BY_CASE) + loads


# ---- Commands that the program may not have yet.


def laid_out(definitions):
    """Structs without parameters, by their names and fields, as `tidy` writes them."""
    return "\n".join("typedef struct _%s {\n    %s\n} %s;\n" % (name, "\n    ".join(fields), name) for name, fields in definitions)


def tidied_comment(size):
    """One comment, which isn't kept."""
    module = SMALL_MODULE.replace("entrypoint ", "")
    text = "/*" + "c" * (size - len(module) - 5) + "*/\n" + module
    return "tidy", text, laid_out([("P", ["UINT16 x;", "UINT16BE y { y >= 3 };"])])


def tidied_names(size):
    """A text of as many structs as there may be, with long names, that is laid out already."""
    length = size // MOST_DEFINITIONS // 3 - 20
    text = laid_out(("T%d" % place + "b" * length, ["UINT8 %s;" % ("a" * length)]) for place in range(MOST_DEFINITIONS))
    return "tidy", text, text


def tidied_nodes(count):
    """A text of so many nodes on one line."""
    fields = []
    for place in range((count - 1) // 240):
        tests = " && ".join("f%d < %d" % (place, 100 + test) for test in range(60))
        fields.append("UINT8 f%d { %s };" % (place, tests))
    return "tidy", "typedef struct _F { %s } F;\n" % " ".join(fields), laid_out([("F", fields)])


def benched(count):
    wanted = r"messages %d\naccepted \d+\nrejected \d+\nbytes \d+\nloads \d+\n" % count
    return "bench %d" % count, "", re.compile(wanted).fullmatch


def is_listing(out):
    """Whether an output has lines that begin with their numbers."""
    lines = out.splitlines()
    return out.endswith("\n") and all(line.startswith("%d " % number) for number, line in enumerate(lines))


def is_image(out):
    return out.startswith("TD3I")


def coded(make):
    """The listing of the code of a text that `check` accepts."""
    return lambda size: ("code", make(size)[1], is_listing)


def packed(make):
    """The image of the code of such a text."""
    return lambda size: ("pack", make(size)[1], is_image)


def checked(definitions, count, entries):
    return "check", "\n".join(definitions) + "\n", "ok definitions %d entries %d\n" % (count, entries)


def chained_definitions(count):
    """Structs in chains of 32, each with a field of the one before."""
    found = []
    for place in range(count):
        inner = "UINT8 a;" if place % MOST_DEPTH == 0 else "T%d a; UINT8 b;" % (place - 1)
        found.append("typedef struct _T%d { %s } T%d;" % (place, inner, place))
    return checked(found, count, 0)


def long_names(size):
    """As many definitions as there may be, with names that make the text that long."""
    length = size // MOST_DEFINITIONS // 3 - 20
    found = ["typedef struct _ { UINT8 %s; } %s;" % ("a" * length, "T%d" % place + "b" * (2 * length - 6)) for place in range(MOST_DEFINITIONS)]
    return checked(found, MOST_DEFINITIONS, 0)


def many_cases(count):
    cases = " ".join("case %d: UINT8 f%d { f%d < 9 };" % (place, place, place) for place in range(count))
    return checked(["casetype _C(UINT16 t) { switch (t) { %s } } C;" % cases], 1, 0)


def fields_that_name_each_other(count):
    """Each field is compared with up to 15 of those before it."""
    fields = []
    for place in range(count):
        tests = " && ".join("f%d >= f%d" % (place, place - back) for back in range(1, min(place, 15) + 1))
        fields.append("UINT8 f%d { %s };" % (place, tests or "true"))
    return checked(["entrypoint typedef struct _F { %s } F;" % " ".join(fields)], 1, 1)


def many_nodes(count):
    """Fields with 60 tests each, until there are nearly that many nodes."""
    fields = []
    for place in range((count - 1) // 240):
        tests = " && ".join("f%d < %d" % (place, 100 + test) for test in range(60))
        fields.append("UINT8 f%d { %s };" % (place, tests))
    return checked(["entrypoint typedef struct _F { %s } F;" % " ".join(fields)], 1, 1)


def wide_definitions(count):
    """Structs, of which each but the first thirteen has a field of each of the first thirteen."""
    found = []
    for place in range(count):
        inner = " ".join("T%d a%d;" % (other, other) for other in range(13)) if place >= 13 else "UINT8 a;"
        found.append("typedef struct _T%d { %s } T%d;" % (place, inner, place))
    return checked(found, count, 0)


def constants(count):
    """Constants, and structs of at most 250 fields that name a quarter of them."""
    named = list(range(count // 4))
    structs = [named[first : first + 250] for first in range(0, len(named), 250)]
    last = count - len(structs) - 1
    found = ["#define K%d %d" % (place, place) for place in range(last + 1)]
    for number, places in enumerate(structs):
        fields = " ".join("UINT16 a%d { a%d != K%d };" % (place, place, last - place) for place in places)
        found.append("typedef struct _S%d { %s } S%d;" % (number, fields, number))
    return checked(found, count, 0)


def facts_in_force(count):
    """So many facts, and then fields with 500 nodes of sums under all of them."""
    fields = []
    for place in range(count // 100):
        tests = " && ".join("f%d < %d" % (place, 60 + test) for test in range(100))
        fields.append("UINT8 f%d { %s };" % (place, tests))
    for place in range(5):
        sums = " && ".join("f%d + f%d < 200" % (back % (count // 100), (back + 1) % (count // 100)) for back in range(20))
        fields.append("UINT8 g%d { %s };" % (place, sums))
    return checked(["entrypoint typedef struct _F { %s } F;" % " ".join(fields)], 1, 1)


# ---- Hosts.


def hosted(module, buffer, scripts, report):
    guests = ",".join('{"script":[%s]}' % ",".join(steps) for steps in scripts)
    job = '{"entry":"P","buffer":"%s","workers":1,"guests":[%s]}\n' % (buffer, guests)
    return "host", module + "%%\n" + job, report


def hosted_posts(count):
    """Posts of four guests."""
    each = count // 4
    report = "".join("reply %d %d\n%s" % (guest, number, SMALL_REPORT) for guest in range(1, 5) for number in range(1, each + 1))
    return hosted(SMALL_MODULE, "0100000300000000", [['["post",0,4]'] * each] * 4, report)


def hosted_stores(count):
    """Stores of four guests, and a post of none of these words."""
    scripts = [['["store",1,"00000000000000ff"]'] * (count // 4)] * 4
    scripts[0] = ['["post",0,4]'] + scripts[0]
    return hosted(SMALL_MODULE, "0100000300000000" + "00" * 8, scripts, "reply 1 1\n" + SMALL_REPORT)


def hosted_words(count):
    """Sixteen messages of so many words in all, each word loaded."""
    words = count // 16
    module = "entrypoint typedef struct _P { all_zeros z; } P;\n"
    report = "".join("reply 1 %d\naccept %d\n%s" % (number, 8 * words, zero_loads(words)) for number in range(1, 17))
    return hosted(module, "00" * (8 * words), [['["post",0,%d]' % (8 * words)] * 16], report)


CASES = [
    ("message, all 256 fields accepted", "bytes", MOST_MESSAGE, accepted_message),
    ("message, rejected at its first field", "bytes", MOST_MESSAGE, refused_message),
    ("array of bytes", "bytes", MOST_MESSAGE, array("", "UINT8 a[:byte-size n];", nothing_loaded)),
    ("array of tested bytes", "bytes", MOST_MESSAGE, array(BYTE, "I a[:byte-size n];", all_zeros_loaded)),
    ("array of 8-byte structs", "bytes", MOST_MESSAGE, array(PAIR, "I a[:byte-size n];", nothing_loaded)),
    ("array of tested 8-byte structs", "bytes", MOST_MESSAGE, array(WIDE, "I a[:byte-size n];", all_zeros_loaded)),
    ("array of structs of some size", "bytes", MOST_MESSAGE, array(VARIABLE, "I a[:byte-size n];", all_zeros_loaded)),
    ("array of structs of 256 fields", "bytes", MOST_MESSAGE, array(CHAINED, "I a[:byte-size n];", all_zeros_loaded)),
    ("array up to a zero", "bytes", MOST_MESSAGE, array("", "UINT8 a[:zeroterm-byte-size-at-most n];", all_ones_loaded, "01")),
    ("single element of zeros", "bytes", MOST_MESSAGE, array("", "all_zeros a[:byte-size-single-element-array n];", all_zeros_loaded)),
    ("input, one comment", "bytes", MOST_INPUT, one_comment),
    ("input, comments of five bytes", "bytes", MOST_INPUT, many_comments),
    ("input, spaces", "bytes", MOST_INPUT, spaces),
    ("stores to one word", "stores", MOST_STORES, stores),
    ("stores to as many words", "stores", MOST_STORES, stores_to_words(list)),
    ("stores to as many words, last first", "stores", MOST_STORES, stores_to_words(reversed)),
    ("definitions in chains of 32", "definitions", MOST_DEFINITIONS, chained_definitions),
    ("definitions that name thirteen others", "definitions", MOST_DEFINITIONS, wide_definitions),
    ("constants", "definitions", MOST_DEFINITIONS, constants),
    ("definitions with long names", "bytes", MOST_INPUT, long_names),
    ("cases", "cases", 256, many_cases),
    ("elements of the last case", "cases", 256, elements_by_case),
    ("elements of nested types", "levels", 32, levels_of_types),
    ("trace of nested types", "levels", 32, trace_of_levels),
    ("fields that name each other", "fields", 256, fields_that_name_each_other),
    ("nodes", "nodes", MOST_NODES, many_nodes),
    ("facts in force", "facts", 3200, facts_in_force),
]

# Left out, with a line that says so, where the program doesn't take the command.
LATER = [
    ("tidy, one comment", "bytes", MOST_INPUT, tidied_comment),
    ("tidy, long names", "bytes", MOST_INPUT, tidied_names),
    ("tidy, nodes", "nodes", MOST_NODES, tidied_nodes),
    ("bench", "messages", MOST_BENCHED, benched),
    ("code, nodes", "nodes", MOST_NODES, coded(many_nodes)),
    ("code, definitions in chains", "definitions", MOST_DEFINITIONS, coded(chained_definitions)),
    ("code, definitions that name others", "definitions", MOST_DEFINITIONS, coded(wide_definitions)),
    ("code, cases", "cases", 256, coded(many_cases)),
    ("pack, nodes", "nodes", MOST_NODES, packed(many_nodes)),
    ("pack, definitions in chains", "definitions", MOST_DEFINITIONS, packed(chained_definitions)),
    ("pack, definitions that name others", "definitions", MOST_DEFINITIONS, packed(wide_definitions)),
    ("pack, cases", "cases", 256, packed(many_cases)),
    ("host, posts", "posts", MOST_POSTS, hosted_posts),
    ("host, stores", "stores", MOST_STORES, hosted_stores),
    ("host, words of messages", "words", MOST_WORDS, hosted_words),
]
