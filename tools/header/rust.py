"""The module for Rust of an image: the image as bytes, a struct for each output record, and calls with types, over the crate capi/rust."""

import hashlib

from ..c_names import undotted, unique
from .entries import Record, entries_of, rows_of, titles_of

WIDTHS = {8: "u8", 16: "u16", 32: "u32", 64: "u64", 0: "u32"}
RESERVED = ("self", "words", "parts", "place", "length", "call")
KEYWORDS = set(
    "as break const continue else enum extern false fn for if impl in let loop match mod move mut pub ref return static struct trait true"
    " type unsafe use where while async await dyn abstract become box do final macro override priv typeof unsized virtual yield try gen".split()
)
# Keywords that can't be raw identifiers.
NEVER_RAW = {"self", "Self", "crate", "super", "_"}

HEAD = """//! Made by td-header %(version)s from an image of %(size)d bytes, SHA-256 %(sum)s.
//! Make it anew in place of editing it. The machine that validates is proved; this file isn't.
#![allow(non_snake_case, non_camel_case_types, dead_code, clippy::all)]
use core::sync::atomic::AtomicU64;
use td::{Accepted, Call, Error, No, Verdict};

/// A session by a code whose entry points, parameters, cells and copy buffers have this file's names and widths.
pub struct Session(pub td::Session);

fn is_called(s: &mut td::Session, number: u32, name: &str) -> Result<(), Error> {
    if s.name(number)? == name { Ok(()) } else { Err(Error::Unfit) }
}

fn has_param(s: &mut td::Session, entry: u32, place: usize, name: &str, bytes: u32) -> Result<(), Error> {
    let told = s.param(entry, place)?;
    if told.bytes != bytes { return Err(Error::Unfit); }
    is_called(s, told.name, name)
}

// Of a cell that is a place in the message the bytes are 0.
fn has_cell(s: &mut td::Session, entry: u32, place: usize, name: &str, field: Option<&str>, bytes: u32) -> Result<(), Error> {
    let told = s.cell(entry, place)?;
    let width = if told.is_place != 0 { 0 } else { told.bytes };
    if width != bytes || (told.has_field != 0) != field.is_some() { return Err(Error::Unfit); }
    is_called(s, told.name, name)?;
    match field { Some(field) => is_called(s, told.field, field), None => Ok(()) }
}

fn has_copy(s: &mut td::Session, entry: u32, place: usize, name: &str, room: u32) -> Result<(), Error> {
    let told = s.buffer(entry, place)?;
    if told.room != room { return Err(Error::Unfit); }
    is_called(s, told.name, name)
}

fn has_entry(s: &mut td::Session, entry: u32, name: &str, params: u64, cells: u64, copies: u64) -> Result<(), Error> {
    let told = s.describe(entry)?;
    let counts = (told.param_count, told.cell_count, told.buffer_count);
    if s.entry(name)? == entry && counts == (params, cells, copies) { Ok(()) } else { Err(Error::Unfit) }
}

fn answer(verdict: Verdict) -> Result<(), No> {
    match verdict {
        Verdict::Accepted { .. } => Ok(()),
        Verdict::Rejected { reason, position } => Err(No::Rejected { reason, position }),
    }
}

impl Session {
    /// Opens a session by this file's image.
    pub fn open() -> Result<Session, Error> {
        Session::open_image(&IMAGE)
    }

    /// Opens a session by an image, which may be another one than this file's, if it fits. Err: `Error::Unfit` if it doesn't.
    pub fn open_image(image: &[u8]) -> Result<Session, Error> {
        let mut s = td::Session::open(image)?;
        match fits(&mut s) {
            Ok(()) => Ok(Session(s)),
            Err(Error::Missing) => Err(Error::Unfit),
            Err(error) => Err(error),
        }
    }

    /// Another session by the same code, for another thread.
    pub fn again(&mut self) -> Result<Session, Error> {
        Ok(Session(self.0.again()?))
    }
"""


def escaped(name):
    """A name that may stand as a field or a variable."""
    name = undotted(name)
    if name in NEVER_RAW:
        return name + "_"
    return "r#" + name if name in KEYWORDS else name


def quoted(name):
    return '"%s"' % name


class Module:
    """What is written of one image."""

    def __init__(self, code, name, image, version):
        self.image, self.version = image, version
        self.entries = entries_of(code, escaped, RESERVED)
        # Of types; the last ones are taken by what the file uses.
        self.taken = {"Session", "IMAGE", "AtomicU64", "Accepted", "Call", "Error", "No", "Verdict", "Ok", "Err", "Some", "None", "Result", "Option", "Vec", "td", "core", "_"}
        self.titles = titles_of(self.entries, self.taken)

    def text(self):
        known = {"version": self.version, "size": len(self.image), "sum": hashlib.sha256(self.image).hexdigest()}
        lines, structs = [HEAD % known], []
        for entry, title in zip(self.entries, self.titles):
            lines += self.calls(entry, title, structs)
        lines += ["}", "", "fn fits(s: &mut td::Session) -> Result<(), Error> {", *self.tests(), "    Ok(())", "}", ""]
        return "\n".join(lines + structs + ["/// The image.", "pub static IMAGE: [u8; %d] = [" % len(self.image), *rows_of(self.image), "];", ""])

    def tests(self):
        for entry in self.entries:
            counts = "%d, %d, %d" % (len(entry.params), len(entry.cells), len(entry.copies))
            yield "    has_entry(s, %d, %s, %s)?;" % (entry.number, quoted(entry.told), counts)
            for part in entry.params:
                yield "    has_param(s, %d, %d, %s, %d)?;" % (entry.number, part.place, quoted(part.told), part.bits // 8)
            for cell in entry.cells:
                field = "None" if cell.field is None else "Some(%s)" % quoted(cell.field)
                yield "    has_cell(s, %d, %d, %s, %s, %d)?;" % (entry.number, cell.place, quoted(cell.told), field, cell.bits // 8)
            for part in entry.copies:
                yield "    has_copy(s, %d, %d, %s, %d)?;" % (entry.number, part.place, quoted(part.told), part.bits)

    def calls(self, entry, title, structs):
        """The two calls of an entry point; what they deliver goes to the structs."""
        fields, made = [], []
        derived = "#[derive(Debug, Clone, PartialEq, Eq)]" if entry.copies else "#[derive(Debug, Clone, Copy, PartialEq, Eq)]"
        for it in entry.order:
            if isinstance(it, Record):
                name = unique("%s_%s" % (title, it.own.replace("r#", "")), self.taken)
                structs += ["/// An output record of `%s`." % entry.told, "#[derive(Debug, Clone, Copy, PartialEq, Eq, Default)]", "pub struct %s {" % name]
                structs += ["    pub %s: %s,%s" % (cell.own, WIDTHS[cell.bits], "" if cell.bits else " // a place in the message") for cell in it.members]
                structs += ["}", ""]
                fields.append("    pub %s: %s," % (it.own, name))
                members = ", ".join("%s: call.cells[%d] as %s" % (cell.own, cell.place, WIDTHS[cell.bits]) for cell in it.members)
                made.append("%s: %s { %s }" % (it.own, name, members))
            else:
                fields.append("    pub %s: %s," % (it.own, WIDTHS[it.bits]))
                made.append("%s: call.cells[%d] as %s" % (it.own, it.place, WIDTHS[it.bits]))
        for part in entry.copies:
            fields.append("    pub %s: Vec<u8>," % part.own)
            made.append("%s: self.0.copied(%d)?" % (part.own, part.place))
        structs += ["/// What a message that is accepted as `%s` delivers." % entry.told, derived, "pub struct %s {" % title, *fields, "}", ""]
        params = "".join(", %s: %s" % (part.own, WIDTHS[part.bits]) for part in entry.params)
        args = ", ".join("%s as u64" % part.own for part in entry.params)
        for end, where, place, length, given in (
            ("", "place: u32, length: u32", "place", "length", ""),
            ("_parts", "parts: &[td::Stretch]", "0", "0", "parts, "),
        ):
            of = "a message in stretches" if end else "the message of `length` bytes from byte `place` of the words on"
            yield ""
            yield "    /// Validates %s as `%s`, with each cell 0 before." % (of, entry.told)
            yield "    pub fn %s%s(&mut self, words: &[AtomicU64], %s%s) -> Result<Accepted<%s>, No> {" % ("validate_" + title, end, where, params, title)
            yield "        let mut call = Call::new(%d, %s, %s, &[%s], %d);" % (entry.number, place, length, args, len(entry.cells))
            yield "        answer(self.0.validate%s(words, %s&mut call)?)?;" % (end, given)
            yield "        let delivers = %s { %s };" % (title, ", ".join(made))
            yield "        Ok(Accepted { position: call.position, load_count: call.load_count, delivers })"
            yield "    }"
