"""Help on J1 to J10, Z1 to Z5: jobs, and inputs as a whole. With the job itself it says what stands there."""

import difflib
import json
import re

from limits import MOST_ENTRIES, MOST_GUESTS, MOST_INPUT, MOST_MESSAGE, MOST_RINGS, MOST_SWAPS, MOST_TAKES, MOST_WORKERS, grouped
from reference.errors import ModuleError
from reference.jobs import HEXADECIMAL, arguments_in, is_whole, parts_in
from reference.modules import module_of

from ..places import escaped, place_of
from .entry_points import cells_wanted, values_wanted
from .job_limits import past_a_limit
from .job_paths import at_path, form_of, shown
from .rings import RING, RING_FIELDS, past_ring
from .swaps import no_swap

RUN_FIELDS = ("entry", "args", "cells", "bytes", "length", "stretches", "value", "stores")
GIVEN_FIELDS = ("bytes", "length", "stretches")
HOST_FIELDS = ("entry", "args", "buffer", "workers", "guests", "rings", "swaps")
GUEST_FIELDS = ("script",)
# Of a number with more digits the first ones are read: Python reads no more than 4,300, and it is past all size anyway.
MOST_DIGITS = 4_000
# The form of each field, and an example.
FORMS = {
    "entry": ("a text, the name of an entry point", '"entry":"P"'),
    "args": ("a list of whole numbers below 2^64, one for each value parameter", '"args":[4,0]'),
    "args[i]": ("a whole number below 2^64 in digits alone: no quotes, sign, point or exponent", '"args":[4,0]'),
    "cells": ("a list of whole numbers, one for each cell; it may be left out", '"cells":[0,0]'),
    "cells[i]": ("a whole number below 2^64 in digits alone: no quotes, sign, point or exponent", '"cells":[0,0]'),
    "bytes": ("a text of hexadecimal digits", '"bytes":"01000003"'),
    "length": ("a whole number of bytes, in digits alone", '"length":4'),
    "stretches": ("a list of up to 64 stretches; it may be left out", '"stretches":[[3,2],[0,2]]'),
    "stretches[i]": ("a list of two whole numbers, [place, size], both in bytes of `bytes`", "[3,2]"),
    "value": ("made of whole numbers, lists, texts of hexadecimal digits and `null`; it stands in place of `bytes`, `length` and `stretches`", '"value":[1,3]'),
    "stores": ("a list; it may be left out", '"stores":[[1,0,"0100000400000000"]]'),
    "stores[i]": ("a list of two whole numbers and a text, [before, word, text]", '[1,0,"0100000400000000"]'),
    "buffer": ("a text of hexadecimal digits", '"buffer":"0100000300000000"'),
    "workers": ("a whole number, 1 to %d" % MOST_WORKERS, '"workers":2'),
    "guests": ("a list of 1 to %d objects" % MOST_GUESTS, '"guests":[{"script":[["post",0,4]]}]'),
    "guests[i]": ("an object with the field `script` alone", '{"script":[["post",0,4]]}'),
    "guests[i].script": ("a list of steps", '"script":[["store",0,"0100000300000000"],["post",0,4]]'),
    "rings": ("a list of up to %d objects; it may be left out" % MOST_RINGS, '"rings":[%s]' % RING),
    "rings[i]": ("an object with the fields `base`, `entries`, `most` and `takes`", RING),
    "rings[i].base": ("a whole number, the word of the buffer with the ring's count", '"base":0'),
    "rings[i].entries": ("a whole number, 1 to %s: how many descriptors there is room for" % grouped(MOST_ENTRIES), '"entries":2'),
    "rings[i].most": ("a whole number, at most %s: how many bytes a message may have" % grouped(MOST_MESSAGE), '"most":8'),
    "rings[i].takes": ("a whole number, at most %s: how often the ring is looked at" % grouped(MOST_TAKES), '"takes":2'),
    "swaps": ("a list of up to %d module texts; it may be left out" % MOST_SWAPS, '"swaps":["entrypoint typedef struct _P { UINT16 x; } P;"]'),
    "swaps[i]": ("a text, a module that takes the place of the one before it", '"entrypoint typedef struct _P { UINT16 x; } P;"'),
    "guests[i].script[i]": ('`["store", word, text]`, `["post", base, length]` or `["post", list]`, a list of `[place, size]`', '["post",0,4]'),
}


def known_of(text):
    for one in [text] if text.endswith(b"\n") else [text, text + b"\n"]:
        try:
            return module_of(one)[1]
        except ModuleError:
            continue
    return None


def is_list(value):
    return isinstance(value, list)


def is_text(value):
    return isinstance(value, str)


# The form in which the second reading takes each field that jobs of one command have alone.
HOST_ALONE = {"buffer": is_text, "workers": is_whole, "guests": is_list, "rings": is_list, "swaps": is_list}
RUN_ALONE = {"cells": is_list, "bytes": is_text, "length": is_whole, "stretches": is_list, "stores": is_list, "value": lambda value: all(map(may_be_part, parts_in(value)))}


class Job:
    """A job as far as it can be read, and the types of its entry point."""

    def __init__(self, known, text):
        self.known, self.text, self.value, self.fault = known, text, None, None
        if text is not None:
            try:
                self.value = json.loads(text.decode("utf-8"), parse_int=lambda digits: int(digits[:MOST_DIGITS]))
            except (ValueError, RecursionError) as fault:
                self.fault = fault
        self.entry = None
        if known is not None and isinstance(self.value, dict):
            self.entry = next((known.types[n] for n in known.entries if known.types[n].name == self.value.get("entry")), None)

    def entries(self):
        """The entry points that are meant: that of the job, or else all."""
        if self.entry is not None:
            return [self.entry]
        return [self.known.types[number] for number in self.known.entries] if self.known is not None else []

    def is_host(self):
        return isinstance(self.value, dict) and bool(set(HOST_ALONE) & set(self.value))


def wanted_line(made, which):
    wanted = values_wanted(made) if which == "args" else cells_wanted(made)
    what = ("value parameter" if which == "args" else "cell") + ("" if len(wanted) == 1 else "s")
    return "`%s` has %s %s%s." % (made.name, len(wanted) or "no", what, ": " + ", ".join(wanted) if wanted else "")


def example_of(made, is_host):
    """A job that is whole, for an entry point."""
    job = {"entry": made.name}
    if values_wanted(made):
        job["args"] = [0] * len(values_wanted(made))
    if is_host:
        job.update(buffer="0000000000000000", workers=1, guests=[{"script": [["post", 0, 8]]}])
    else:
        job.update(bytes="0000000000000000", length=8)
    return "mend: a whole job: `%s`; its bytes are those of a file by `xxd -p FILE | tr -d '\\n'`, or of td-job." % json.dumps(job, separators=(",", ":"))


def no_json(job):
    if job.fault is not None:
        if isinstance(job.fault, json.JSONDecodeError):
            place = place_of(job.text, len(job.fault.doc[: job.fault.pos].encode()))
            return ["The job isn't JSON at %s: %s." % (place, job.fault.msg.rstrip(":")), "mend: put it right there: numbers have no leading zero, texts double quotes, and no comma stands before `}` or `]`."]
        return ["The job isn't JSON: %s." % escaped(str(job.fault).encode()), "mend: save it as UTF-8, with at most 127 brackets and braces open at once."]
    more = "" if job.text is None else " Another reader of JSON takes it: look for more than 127 open brackets, a lone surrogate or a number past all size."
    lines = ["What follows the line `%%` must be one whole JSON object, in UTF-8." + more]
    return lines + [example_of(made, False) for made in job.entries()[:1]]


def fields_of(path):
    """The fields that an object has in which a path ends, and the path's last name."""
    for list_name, known in (("guests", GUEST_FIELDS), ("rings", RING_FIELDS)):
        if re.match(list_name + r"\[\d+\]\.", path):
            return known, path.split(".", 1)[1]
    return tuple(dict.fromkeys(RUN_FIELDS + HOST_FIELDS)), path


def field_of_the_other(job, path):
    """Of a field that has its form, and is refused as only jobs of the other command have it; or of one that is missing for that."""
    if not isinstance(job.value, dict):
        return []
    if path not in job.value:
        return job_of_the_other(job, path)
    for alone, command, other, fields in ((HOST_ALONE, "host", "run", RUN_FIELDS), (RUN_ALONE, "run", "host", HOST_FIELDS)):
        if path in alone and alone[path](job.value[path]):
            names = ", ".join("`%s`" % field for field in fields)
            return ["`%s` is a field of jobs for `td %s` alone: those for `td %s` have %s." % (path, command, other, names),
                    "mend: take `%s` out, or give a job with it to `td %s`." % (path, command)]  # fmt: skip
    return []


def listed(words):
    return words[0] if len(words) == 1 else "%s and %s" % (", ".join(words[:-1]), words[-1])


def job_of_the_other(job, path):
    """Of a field that every job of one command has, where all that stands there is the other command's."""
    for needed, alone, command, other in (("bytes", HOST_ALONE, "run", "host"), ("buffer", RUN_ALONE, "host", "run")):
        found = ["`%s`" % field for field in alone if field in job.value]
        if path == needed and found:
            said = "The job has no `%s`, which each job for `td %s` has; it has %s, which jobs for `td %s` have alone." % (path, command, listed(found), other)
            return [said, "mend: give it to `td %s`: the module, a line `%%%%` and the job are its input; `td-run MODULE JOB` runs a job of either." % other]
    return []


def field_wrong(job, path):
    form = form_of(path)
    if form not in FORMS:
        known, name = fields_of(path)
        if job.is_host() or job.value is not None:
            known = known if known in (GUEST_FIELDS, RING_FIELDS) else HOST_FIELDS if job.is_host() else RUN_FIELDS
        near = difflib.get_close_matches(name.lower(), known, 1, 0.6)
        lines = ["A job has no field `%s`: its fields are %s." % (escaped(name.encode("utf-8", "surrogateescape")), ", ".join("`%s`" % field for field in known))]
        return lines + ["mend: write `%s`." % near[0] if near else "mend: take the field out."]
    if form in GIVEN_FIELDS and isinstance(job.value, dict) and "value" in job.value and form in job.value:
        return ["`%s` stands beside `value`, which stands in its place." % path, "mend: take `%s` out, or `value`." % path]
    other = field_of_the_other(job, path)
    if other:
        return other
    wanted, example = FORMS[form]
    lines = ["`%s` is %s: %s." % (path, wanted, "as `%s`" % example)]
    if job.text is not None and job.fault is None:
        if not isinstance(job.value, dict):
            lines.append("The job isn't an object, so it has no fields.")
        else:
            there, value = at_path(job.value, path)
            lines.append("There stands `%s`." % shown(value) if there else "The job doesn't have it.")
    if form in ("args", "cells"):
        lines += [wanted_line(made, form) for made in job.entries()]
    if form == "length" and isinstance(job.value, dict) and isinstance(job.value.get("bytes"), str) and "length" not in job.value:
        stretches = numbers_of(job.value.get("stretches"))
        length = len(job.value["bytes"]) // 2 if stretches is None else sum(size for _, size in stretches)
        what = "all of its bytes" if stretches is None else "that of its stretches together"
        return lines + ['mend: write `"length":%d`, %s; `td-run` fills it in.' % (length, what)]
    return lines + (["mend: write it as the example does, outside of quotes." if form == "length" else "mend: write it as the example does."] if not job.entries() else [example_of(job.entries()[0], job.is_host() or form.startswith(("guests", "workers", "buffer", "rings", "swaps")))])


def no_entry(job):
    names = [made.name for made in job.entries()]
    lines = []
    if isinstance(job.value, dict):
        lines.append("No entry point is named `%s`." % escaped(str(job.value.get("entry")).encode("utf-8", "surrogateescape")))
    if job.known is None:
        return lines + ["mend: write the name that stands after the `}` of an `entrypoint` definition."]
    if not names:
        return lines + ["The module has no entry point.", "mend: write `entrypoint` before the `typedef` or `casetype` of the type that is to be run."]
    lines.append("The module's entry points: %s." % ", ".join("`%s`" % name for name in names))
    given = str(job.value.get("entry")).lstrip("_") if isinstance(job.value, dict) else names[0]
    of_parts = [name for name in names if name.partition(".")[2] == given]
    if of_parts:
        return lines + ['mend: write `"entry":"%s"`: of a text of parts the name stands behind its part\'s and a dot.' % of_parts[0]]
    near = difflib.get_close_matches(given, names, 1, 0.4)
    return lines + ['mend: write `"entry":"%s"`, the name after the `}` and not the one after `struct`.' % (near or names)[0]]


def wrong_values(job, path):
    which, _, index = path.partition("[")
    lines = [wanted_line(made, which) for made in job.entries()]
    if index:
        number = int(index.rstrip("]"))
        for made in job.entries():
            wanted = values_wanted(made) if which == "args" else cells_wanted(made)
            bits = [parameter.bits for parameter in arguments_in(made)] if which == "args" else [bits or 32 for _, _, bits in made.cells]
            if number < len(bits):
                there, value = at_path(job.value, path) if isinstance(job.value, dict) else (False, None)
                given = "; the job gives %s" % shown(value) if there else ""
                lines.append("`%s` is for %s: at most %d%s." % (path, wanted[number], 2 ** bits[number] - 1, given))
        return lines + ["mend: give a number that fits, or let the parameter be wider."]
    there, value = at_path(job.value, which) if isinstance(job.value, dict) else (False, None)
    if there and isinstance(value, list):
        lines.append("The job gives %d." % len(value))
    zeros = [0] * len(values_wanted(job.entries()[0]) if which == "args" else job.entries()[0].cells) if job.entries() else []
    if zeros:
        return lines + ['mend: write one number for each, in this order: `"%s":%s`.' % (which, json.dumps(zeros, separators=(",", ":")))]
    return lines + ["mend: leave `%s` out." % which]


def text_at(job, path):
    """The text of digits at a path: a field's, a store's or a step's."""
    there, value = at_path(job.value, path) if isinstance(job.value, dict) else (False, None)
    if there and isinstance(value, list):
        value = value[2] if len(value) == 3 else None
    return value if isinstance(value, str) else None


def no_bytes(job):
    lines = ["A text in `value` is an even number of hexadecimal digits, two for each byte; white space and `0x` are none."]
    texts = [part for part in parts_in(job.value.get("value")) if isinstance(part, str)] if isinstance(job.value, dict) else []
    wrong = next((text for text in texts if len(text) % 2 or any(char not in HEXADECIMAL for char in text)), None)
    if wrong is not None:
        lines.append("There stands `%s`." % shown(wrong))
    return lines + ["mend: write each byte as two digits, and a number without quotes."]


def may_be_part(part):
    return part is None or is_whole(part) or isinstance(part, (str, list))


def no_digits(job, path):
    if path == "value":
        return no_bytes(job)
    is_word = path not in ("bytes", "buffer")
    count = "exactly 16 hexadecimal digits, the word's 8 bytes in memory order" if is_word else "an even number of hexadecimal digits, two for each byte in the order of memory"
    lines = ["The text of `%s` is %s; white space and `0x` are none." % (path, count)]
    text = text_at(job, path)
    if text is not None:
        bad = next((at for at, char in enumerate(text) if char not in HEXADECIMAL), None)
        if bad is not None:
            lines.append("Character %d of it, from 0, is `%s`." % (bad, escaped(text[bad].encode("utf-8", "surrogateescape"))))
        lines.append("It has %d characters." % len(text))
        digits = "".join(char for char in text.removeprefix("0x") if char in HEXADECIMAL)
        if is_word and digits and len(digits) <= 16:
            return lines + ['mend: fill it up: `"%s"`.' % digits.ljust(16, "0")]
    return lines + ["mend: write each byte as two digits: `xxd -p FILE | tr -d '\\n'` prints a file so, and `td-run --bytes FILE` takes it as it is."]


def bytes_with_words(job, is_host):
    """How many bytes have the words that may be stored to, None where that can't be told; and whose they are."""
    field = "buffer" if is_host else "bytes" if "stretches" in job.value else None
    if field is None and "value" in job.value:
        return None, "what is written of the value"
    if field is None:
        return job.value.get("length"), "the message"
    text = job.value.get(field)
    return len(text) // 2 if isinstance(text, str) else None, "the buffer" if is_host else "the text of `bytes`"


def no_word(job, path):
    lines = ["The store of `%s` is to a word that isn't there. Words are numbered from 0, and have 8 bytes." % path]
    if isinstance(job.value, dict):
        length, what = bytes_with_words(job, path.startswith("guests"))
        there, store = at_path(job.value, path)
        if isinstance(length, int) and there and isinstance(store, list) and len(store) == 3:
            words = -(-length // 8)
            lines.append("The store is to word %s; %s of %d bytes has %s." % (store[1], what, length, "words 0 to %d" % (words - 1) if words else "none"))
            return lines + ["mend: store to a word below %d, or make %s longer." % (words, what) if words else "mend: make %s longer, or take the store out." % what]
    return lines + ["mend: store to a word below the length / 8, rounded up; `bytes` past the message's `length` don't count. Beside `stretches` all of `bytes` does."]


def numbers_of(value):
    """The stretches of a list; None where it isn't one of pairs of numbers."""
    is_list = isinstance(value, list) and all(isinstance(pair, list) and len(pair) == 2 and all(type(k) is int for k in pair) for pair in value)
    return value if is_list else None


def past_stretches(job, path):
    """A stretch that passes the bytes given, or sizes that have another sum."""
    value = job.value if isinstance(job.value, dict) else {}
    given = len(value["bytes"]) // 2 if isinstance(value.get("bytes"), str) else None
    if path != "stretches":
        lines = ["The stretch passes the bytes that are given: its place and its size together are at most their number, also where it is empty."]
        there, stretch = at_path(value, path)
        if there and numbers_of([stretch]) and given is not None:
            lines.append("It begins at byte %d and has %d bytes, so it ends at byte %d; `bytes` has %d." % (*stretch, sum(stretch), given))
        return lines + ["mend: give more bytes, or a smaller stretch: each is `[place, size]`, both counted in bytes."]
    lines = ["The sizes of the stretches don't add up to `length`."]
    stretches = numbers_of(value.get("stretches"))
    if stretches is not None:
        total = sum(size for _, size in stretches)
        lines.append("They have %d bytes together, and `length` is %s." % (total, shown(value.get("length"))))
        return lines + ['mend: write `"length":%d`; `td-run` fills it in where it is left out.' % total]
    return lines + ["mend: write the length that they have together."]


def too_long(job, path):
    if path.startswith("stretches"):
        return past_stretches(job, path)
    if path.startswith("rings"):
        return past_ring(job, path)
    if path == "length":
        lines = ["The message is longer than the bytes that are given."]
        if isinstance(job.value, dict) and isinstance(job.value.get("bytes"), str):
            given = len(job.value["bytes"]) // 2
            lines.append("`length` is %s, and `bytes` has %d." % (shown(job.value.get("length")), given))
            return lines + ['mend: write `"length":%d`, or give more bytes.' % given]
        return lines + ["mend: give more bytes, or a smaller length."]
    lines = ["The message that is posted at `%s` passes the end of the buffer, whose last word is filled with zero bytes." % path]
    there, step = at_path(job.value, path) if isinstance(job.value, dict) else (False, None)
    if there and isinstance(job.value.get("buffer"), str) and isinstance(step, list) and len(step) == 3:
        words = -(-(len(job.value["buffer"]) // 2) // 8)
        lines.append("It begins at word %s and has %s bytes; the buffer has %d words, %d bytes." % (step[1], step[2], words, 8 * words))
    if there and isinstance(job.value.get("buffer"), str) and isinstance(step, list) and len(step) == 2 and numbers_of(step[1]):
        most = 8 * -(-(len(job.value["buffer"]) // 2) // 8)
        past = next(([number, *pair] for number, pair in enumerate(step[1]) if sum(pair) > most), None)
        if past:
            lines.append("Stretch %d of it, from 0, begins at byte %d and has %d bytes; the buffer has %d." % (*past, most))
            return lines + ["mend: post shorter stretches, from lower places, or make the buffer longer: each is `[place, size]`, in bytes."]
    return lines + ["mend: post fewer bytes, from a lower word, or make the buffer longer: base and length are `[\"post\", word, bytes]`."]


# What each code of a value says, and how it is mended.
WRITTEN = {
    "E1": ("has another shape than its type: another form, or another count of values; a list up to a zero ends at its only one",
           "a number and an enum are a number, a struct and a casetype a list with a value for each field, bytes a text, `unit` is `null`."),
    "E2": ("is a number that doesn't fit its type, or its bits", "write a smaller number."),
    "E3": ("fails a test of the type: `where`, a refinement, an enum, the bound of a list up to a zero, a case that isn't there, or an action",
           "write what the type accepts."),
    "E4": ("is an array whose bytes aren't as many as its size says", "make the size, which stands before it in most formats, the count of these bytes."),
}  # fmt: skip


def not_written(job, place):
    path, code = place.rsplit(" ", 1)
    said, mend = WRITTEN[code]
    lines = ["The value at `%s` %s." % (path, said)]
    there, value = at_path(job.value, path) if isinstance(job.value, dict) else (False, None)
    if there:
        lines.append("There stands `%s`." % shown(value))
    return lines + ["mend: " + mend]


# Of tdc's own lines: what is wrong, and what is to be written.
OF_TDC = {
    "Z4": ("The name that was given to `tdc` can't begin names of C.", "write a letter, then letters, digits and `_`: `tdc c point`."),
    "Z5": ("The module has no entry point, so its C would have no function to call.", "write `entrypoint` before the type that a message has."),
}


def input_as_a_whole(code, text):
    if code in OF_TDC:
        said, mend = OF_TDC[code]
        return [said, "mend: " + mend]
    if code == "Z1":
        said = "An input has at most %s bytes, the module, the line `%%%%` and the job together; the module alone has %d."
        return [said % (grouped(MOST_INPUT), len(text)),
                "mend: shorten the module's comments, or the message: two hexadecimal digits stand for one byte."]  # fmt: skip
    if code == "Z3":
        return ["The text by which the descriptors of rings are validated, the program's own, was refused. No input is known that gives this line.",
                "mend: nothing is wrong with the module or the job; the program isn't the one that was built here."]  # fmt: skip
    near = [number for number, line in enumerate(text.split(b"\n"), 1) if line.strip() == b"%%"]
    lines = ["No line of the input is exactly `%%`."]
    if near:
        return lines + ["Line %d has white space beside it, which makes it another line." % near[0], "mend: write `%%` alone, with a line feed alone behind it."]
    return lines + ["mend: write the module, a line `%%`, and the job; `td-run MODULE JOB` joins two files so."]


STEP_PATH = r"guests\[\d{1,5}\]\.script\[\d{1,9}\]"
# The paths that each code has.
PATHS = {
    "J1": "job",
    "J2": ".*",
    "J3": "entry",
    "J4": r"(args|cells)(\[\d{1,5}\])?",
    "J5": r"bytes|buffer|value|stores\[\d{1,5}\]|" + STEP_PATH,
    "J6": r"stores\[\d{1,5}\]|" + STEP_PATH,
    "J7": r"length|stretches(\[\d{1,5}\])?|rings\[\d{1,2}\]|" + STEP_PATH,
    "J8": r"length|stretches|value|stores|workers|guests|rings(\[\d{1,2}\])?|swaps|posts|words|copies|" + STEP_PATH,
    "J9": r"swaps\[\d{1,2}\]",
    "J10": r"value(\[\d{1,7}\])* E[1-4]",
}
BY_CODE = {"J2": field_wrong, "J4": wrong_values, "J5": no_digits, "J6": no_word, "J7": too_long, "J8": past_a_limit, "J9": no_swap, "J10": not_written}


def help_of(text, code, path, job_text):
    if code in ("Z1", "Z2", "Z3", *OF_TDC):
        return input_as_a_whole(code, text)
    if code not in PATHS or not re.fullmatch(PATHS[code], path, re.DOTALL):
        return []
    job = Job(known_of(text), job_text)
    if code == "J1":
        return no_json(job)
    return no_entry(job) if code == "J3" else BY_CODE[code](job, path)
