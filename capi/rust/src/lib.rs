// SPDX-License-Identifier: Apache-2.0 OR MIT
//! Messages in memory that others keep storing to, validated by td's proved library.
//!
//! A [`Session`] is opened once, from an image (`td pack <FORMAT >IMAGE`); from then on a validation takes no memory, and waits for
//! nobody. Each 64-bit word of a message is loaded at most once, by one atomic load, and only if a byte of it is looked at. What is
//! delivered is what was tested, whatever the words hold by now. `td-header --rust IMAGE NAME` writes calls with the names and types of
//! a format. The library is proved; this crate isn't. docs/c-library.md says what a program owes.
//!
//! The words are `&[AtomicU64]`: memory that another process or a guest stores to, too, as
//! `core::slice::from_raw_parts(mapped as *const AtomicU64, count)`. Nobody may take the memory away while a call runs.
#![no_std]
#![deny(missing_docs)]
extern crate alloc;

mod error;
mod raw;
mod versions;

pub use error::{Accepted, Error, No, Reason, Verdict};
pub use versions::{Codes, Seat};

use alloc::{string::String, vec, vec::Vec};
use core::marker::PhantomData;
use core::sync::atomic::AtomicU64;

/// An entry point of a code.
#[repr(C)]
#[derive(Debug, Clone, Copy, PartialEq, Eq, Default)]
pub struct EntryPoint {
    /// The number of its name.
    pub name: u32,
    unused: u32,
    /// How many parameters it has.
    pub param_count: u64,
    /// How many cells it has.
    pub cell_count: u64,
    /// How many copy buffers it has.
    pub buffer_count: u64,
}

/// A parameter or a cell.
#[repr(C)]
#[derive(Debug, Clone, Copy, PartialEq, Eq, Default)]
pub struct Part {
    /// The number of its name.
    pub name: u32,
    /// 1 if it is a field of an output record.
    pub has_field: u32,
    /// The number of the field's name, then.
    pub field: u32,
    /// Its width in bytes.
    pub bytes: u32,
    /// 1 if it is a place in the message.
    pub is_place: u32,
}

/// A copy buffer.
#[repr(C)]
#[derive(Debug, Clone, Copy, PartialEq, Eq, Default)]
pub struct CopyBuffer {
    /// The number of its name.
    pub name: u32,
    /// For how many bytes it has room.
    pub room: u32,
}

/// A type that encloses a failure.
#[repr(C)]
#[derive(Debug, Clone, Copy, PartialEq, Eq, Default)]
pub struct Frame {
    /// The number of the type's name.
    pub kind: u32,
    /// 0: a field; 1: `where`; 2: `switch`.
    pub spot: u32,
    /// The number of the field's name.
    pub field: u32,
    /// The byte at which it began.
    pub start: u32,
    /// Why, as td.h numbers it.
    pub reason: u32,
}

/// Bytes of the words that are a piece of a message.
#[repr(C)]
#[derive(Debug, Clone, Copy, PartialEq, Eq, Default)]
pub struct Stretch {
    /// Its first byte in the words.
    pub place: u32,
    /// How many bytes it has.
    pub size: u32,
}

/// A piece of a message: bytes in words of its own, which may be any memory.
#[repr(transparent)]
pub struct Piece<'a>(raw::Piece, PhantomData<&'a [AtomicU64]>);

impl<'a> Piece<'a> {
    /// So many bytes, of which the first is byte `place` of these words.
    pub fn new(words: &'a [AtomicU64], place: u32, size: u32) -> Piece<'a> {
        let (at, count) = (words.as_ptr(), words.len());
        Piece(raw::Piece { words: raw::Words { at, count }, count, place, size }, PhantomData)
    }
}

/// A load that was made.
#[repr(C)]
#[derive(Debug, Clone, Copy, PartialEq, Eq, Default)]
pub struct Load {
    /// The stretch, from 0.
    pub stretch: u32,
    /// The word of the words.
    pub word: u32,
    /// What the load gave.
    pub value: u64,
}

/// What a validation is asked, and what it answers besides the verdict.
#[repr(C)]
#[derive(Debug, Clone, Copy, PartialEq, Eq)]
pub struct Call {
    /// In: the entry point's number.
    pub entry: u32,
    /// In: the message's first byte in the words.
    pub place: u32,
    /// In: how many bytes it has.
    pub length: u32,
    /// In: how many arguments there are.
    pub arg_count: u32,
    /// In: how many cells there are.
    pub cell_count: u32,
    /// Out: as the verdict's.
    pub position: u32,
    /// Out: as the verdict's, as td.h numbers it.
    pub reason: u32,
    unused: u32,
    /// Out: how many types enclose the failure.
    pub frame_count: u64,
    /// Out: how many loads were made, each of another word of the message.
    pub load_count: u64,
    /// Out: how many steps of code were run.
    pub step_count: u64,
    /// In: the arguments.
    pub args: [u64; 16],
    /// In and out: the cells, as the validation left them. A cell that no action sets stays as it was.
    pub cells: [u64; 64],
}

impl Call {
    /// A message of `length` bytes from byte `place` on, by an entry point with these arguments and so many cells, which are 0.
    /// Of more than 16 arguments the first 16 are taken, and the call is then [`Error::Unfit`].
    pub fn new(entry: u32, place: u32, length: u32, args: &[u64], cell_count: u32) -> Call {
        let mut call = Call {
            entry,
            place,
            length,
            arg_count: args.len() as u32,
            cell_count,
            position: 0,
            reason: 6,
            unused: 0,
            frame_count: 0,
            load_count: 0,
            step_count: 0,
            args: [0; 16],
            cells: [0; 64],
        };
        for (to, from) in call.args.iter_mut().zip(args) {
            *to = *from;
        }
        call
    }
}

/// A verified code, with room for one validation at a time (which `&mut` says).
///
/// A handle's slot of some 300 bytes stays after it is dropped: sessions are kept, and not made without end.
pub struct Session(pub(crate) raw::Handle);

// What a handle owns is its own, or is counted atomically.
unsafe impl Send for Session {}

impl Drop for Session {
    fn drop(&mut self) {
        unsafe { raw::td_c_close(&mut self.0, self.0.full) }
    }
}

fn done(code: i32) -> Result<(), Error> {
    if code == 0 {
        Ok(())
    } else {
        Err(Error::of(code))
    }
}

impl Session {
    pub(crate) fn closed() -> Session {
        Session(raw::Handle::closed())
    }

    /// Reads an image, verifies its code, and takes room for validations. Err: [`Error::Image`] if the bytes are no image that
    /// is accepted; [`Error::NoMemory`].
    pub fn open(image: &[u8]) -> Result<Session, Error> {
        let (mut s, mut fault) = (Session::closed(), raw::Fault::default());
        match unsafe { raw::td_c_open_1(&mut s.0, false, image.as_ptr(), image.len(), &mut fault) } {
            0 => Ok(s),
            code => Err(Error::of_image(code, &fault)),
        }
    }

    /// Another session by the same code, with room of its own: for another thread.
    pub fn again(&mut self) -> Result<Session, Error> {
        let mut other = Session::closed();
        done(unsafe { raw::td_c_again(&mut self.0, self.0.full, &mut other.0, false) })?;
        Ok(other)
    }

    /// The number of the first entry point of this name. Err: [`Error::Missing`].
    pub fn entry(&mut self, name: &str) -> Result<u32, Error> {
        let mut number = 0;
        done(unsafe { raw::td_c_entry(&mut self.0, self.0.full, name.as_ptr(), name.len(), &mut number) })?;
        Ok(number)
    }

    /// What an entry point has. Entry points are numbered from 0; [`Error::Missing`] ends them.
    pub fn describe(&mut self, entry: u32) -> Result<EntryPoint, Error> {
        let mut told = EntryPoint::default();
        done(unsafe { raw::td_c_describe(&mut self.0, self.0.full, entry, &mut told) })?;
        Ok(told)
    }

    /// The parameter at a place of an entry point.
    pub fn param(&mut self, entry: u32, place: usize) -> Result<Part, Error> {
        let mut told = Part::default();
        done(unsafe { raw::td_c_param(&mut self.0, self.0.full, entry, place, &mut told) })?;
        Ok(told)
    }

    /// The cell at a place of an entry point.
    pub fn cell(&mut self, entry: u32, place: usize) -> Result<Part, Error> {
        let mut told = Part::default();
        done(unsafe { raw::td_c_cell(&mut self.0, self.0.full, entry, place, &mut told) })?;
        Ok(told)
    }

    /// The copy buffer at a place of an entry point.
    pub fn buffer(&mut self, entry: u32, place: usize) -> Result<CopyBuffer, Error> {
        let mut told = CopyBuffer::default();
        done(unsafe { raw::td_c_buffer(&mut self.0, self.0.full, entry, place, &mut told) })?;
        Ok(told)
    }

    /// A frame of the last failure; 0 is the innermost. [`Error::Missing`] ends them.
    pub fn frame(&mut self, place: usize) -> Result<Frame, Error> {
        let mut told = Frame::default();
        done(unsafe { raw::td_c_frame(&mut self.0, self.0.full, place, &mut told) })?;
        Ok(told)
    }

    /// A name by its number.
    pub fn name(&mut self, number: u32) -> Result<String, Error> {
        let (mut none, mut size) = (0, 0);
        done(unsafe { raw::td_c_name(&mut self.0, self.0.full, number, &mut none, 0, &mut size) })?;
        let mut bytes = vec![0; size as usize];
        if size > 0 {
            done(unsafe { raw::td_c_name(&mut self.0, self.0.full, number, bytes.as_mut_ptr(), bytes.len(), &mut size) })?;
        }
        // Names are words of letters, digits, `_` and dots.
        Ok(String::from_utf8_lossy(&bytes).into_owned())
    }

    /// Validates the message of the call.
    pub fn validate(&mut self, words: &[AtomicU64], call: &mut Call) -> Result<Verdict, Error> {
        self.validate_loads(words, call, &mut [])
    }

    /// The same, and writes the loads that were made, in their order: as many as there is room for, of `call.load_count` in all.
    pub fn validate_loads(&mut self, words: &[AtomicU64], call: &mut Call, loads: &mut [Load]) -> Result<Verdict, Error> {
        let mut shared = raw::Words { at: words.as_ptr(), count: words.len() };
        let (rows, room) = (loads.as_mut_ptr(), loads.len());
        verdict(unsafe { raw::td_c_validate(&mut self.0, self.0.full, call, &mut shared, words.len(), rows, room) }, call)
    }

    /// The same for a message whose bytes are these stretches of the words, one after the other.
    pub fn validate_parts(&mut self, words: &[AtomicU64], parts: &[Stretch], call: &mut Call) -> Result<Verdict, Error> {
        self.validate_parts_loads(words, parts, call, &mut [])
    }

    /// The same, and writes the loads that were made.
    pub fn validate_parts_loads(
        &mut self,
        words: &[AtomicU64],
        parts: &[Stretch],
        call: &mut Call,
        loads: &mut [Load],
    ) -> Result<Verdict, Error> {
        let mut shared = raw::Words { at: words.as_ptr(), count: words.len() };
        let (at, count) = (parts.as_ptr(), parts.len());
        let (rows, room) = (loads.as_mut_ptr(), loads.len());
        let code = unsafe { raw::td_c_validate_parts(&mut self.0, self.0.full, call, at, count, &mut shared, words.len(), rows, room) };
        verdict(code, call)
    }

    /// Takes room for messages of so many pieces, at most 1,024, so that these take no memory.
    pub fn room(&mut self, pieces: usize) -> Result<(), Error> {
        done(unsafe { raw::td_c_room(&mut self.0, self.0.full, pieces) })
    }

    /// The same for a message that is these pieces, one after the other, each in words of its own.
    pub fn validate_pieces(&mut self, pieces: &mut [Piece], call: &mut Call) -> Result<Verdict, Error> {
        self.validate_pieces_loads(pieces, call, &mut [])
    }

    /// The same, and writes the loads that were made: a load's stretch is the piece, and its word is of that piece's words.
    pub fn validate_pieces_loads(&mut self, pieces: &mut [Piece], call: &mut Call, loads: &mut [Load]) -> Result<Verdict, Error> {
        let (at, count) = (pieces.as_mut_ptr().cast(), pieces.len());
        let (rows, room) = (loads.as_mut_ptr(), loads.len());
        verdict(unsafe { raw::td_c_validate_pieces(&mut self.0, self.0.full, call, at, count, rows, room) }, call)
    }

    /// What the copy buffer at this place holds after the last validation. They are bytes of the loads that were validated.
    pub fn copied(&mut self, place: usize) -> Result<Vec<u8>, Error> {
        let (mut none, mut size) = (0, 0);
        done(unsafe { raw::td_c_copy(&mut self.0, self.0.full, place, &mut none, 0, &mut size) })?;
        let mut bytes = vec![0; size as usize];
        self.copy(place, &mut bytes)?;
        Ok(bytes)
    }

    /// As many of these bytes as there is room for, and how many there are. Takes no memory.
    pub fn copy(&mut self, place: usize, bytes: &mut [u8]) -> Result<u64, Error> {
        let mut size = 0;
        done(unsafe { raw::td_c_copy(&mut self.0, self.0.full, place, bytes.as_mut_ptr(), bytes.len(), &mut size) })?;
        Ok(size)
    }
}

fn verdict(code: i32, call: &Call) -> Result<Verdict, Error> {
    let position = call.position;
    match (code, Reason::of(call.reason)) {
        (0, _) => Ok(Verdict::Accepted { position }),
        (1, Some(reason)) => Ok(Verdict::Rejected { reason, position }),
        (code, _) => Err(Error::of(code)),
    }
}
