//! Codes of which one is published after the other, so that a validator is replaced while others validate.
use crate::{done, raw, Error, Session};

/// Codes, for the one who publishes them.
pub struct Codes(raw::Handle);

/// A seat that asks which code is published, for one thread. It may be used after the codes were dropped.
pub struct Seat(raw::Handle);

unsafe impl Send for Codes {}
unsafe impl Send for Seat {}

impl Drop for Codes {
    fn drop(&mut self) {
        unsafe { raw::td_c_close(&mut self.0, self.0.full) }
    }
}

impl Drop for Seat {
    fn drop(&mut self) {
        unsafe { raw::td_c_close(&mut self.0, self.0.full) }
    }
}

impl Codes {
    /// A handle for codes, which has none yet.
    pub fn open() -> Result<Codes, Error> {
        let mut codes = Codes(raw::Handle::closed());
        done(unsafe { raw::td_c_codes_1(&mut codes.0, false) })?;
        Ok(codes)
    }

    /// A code more, by its image; they are numbered from 0 in this order, 17 at most. Err: [`Error::Closed`] if the first one is
    /// published already.
    pub fn add(&mut self, image: &[u8]) -> Result<(), Error> {
        let mut fault = raw::Fault::default();
        match unsafe { raw::td_c_add(&mut self.0, self.0.full, image.as_ptr(), image.len(), &mut fault) } {
            0 => Ok(()),
            code => Err(Error::of_image(code, &fault)),
        }
    }

    /// From now on code 0 is published, and none is added any more. Err: [`Error::Missing`] if there is none.
    pub fn begin(&mut self) -> Result<(), Error> {
        done(unsafe { raw::td_c_begin(&mut self.0, self.0.full) })
    }

    /// Publishes the next code, and gives its number. Err: [`Error::Missing`] if the last one is published.
    pub fn publish(&mut self) -> Result<u32, Error> {
        let mut number = 0;
        done(unsafe { raw::td_c_publish(&mut self.0, self.0.full, &mut number) })?;
        Ok(number)
    }

    /// A seat, for another thread.
    pub fn seat(&mut self) -> Result<Seat, Error> {
        let mut seat = Seat(raw::Handle::closed());
        done(unsafe { raw::td_c_seat(&mut self.0, self.0.full, &mut seat.0, false) })?;
        Ok(seat)
    }
}

impl Seat {
    /// Loads which code is published: its number. The numbers that a seat loads never fall.
    pub fn current(&mut self) -> Result<u32, Error> {
        let mut number = 0;
        done(unsafe { raw::td_c_current(&mut self.0, self.0.full, &mut number) })?;
        Ok(number)
    }

    /// A session by the code of this number, with room of its own: open one for each code before the first message comes.
    pub fn session(&mut self, number: u32) -> Result<Session, Error> {
        let mut session = Session::closed();
        done(unsafe { raw::td_c_version(&mut self.0, self.0.full, number, &mut session.0, false) })?;
        Ok(session)
    }
}
