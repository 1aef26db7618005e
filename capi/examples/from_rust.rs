//! The same from Rust: one thread stores, another validates. rustc -O from_rust.rs -L FOLDER -l static=td_c -l static=td_heap
use std::sync::atomic::{AtomicBool, AtomicU64, Ordering};

#[repr(C)]
struct TdSession {
    at: *mut u8,
    full: bool,
}

#[repr(C)]
struct TdWords {
    at: *const AtomicU64,
    count: usize,
}

#[repr(C)]
struct TdFault {
    place: u64,
    rule: u32,
}

#[repr(C)]
struct TdCall {
    entry: u32,
    place: u32,
    length: u32,
    arg_count: u32,
    cell_count: u32,
    position: u32,
    reason: u32,
    unused: u32,
    frame_count: u64,
    load_count: u64,
    step_count: u64,
    args: [u64; 16],
    cells: [u64; 64],
}

#[repr(C)]
#[derive(Clone, Copy, Default)]
struct TdLoad {
    stretch: u32,
    word: u32,
    value: u64,
}

unsafe extern "C" {
    fn td_c_open_1(s: *mut TdSession, full: bool, image: *const u8, size: usize, fault: *mut TdFault) -> i32;
    fn td_c_again(s: *mut TdSession, full: bool, other: *mut TdSession, other_full: bool) -> i32;
    fn td_c_entry(s: *mut TdSession, full: bool, name: *const u8, size: usize, number: *mut u32) -> i32;
    fn td_c_validate(
        s: *mut TdSession,
        full: bool,
        call: *mut TdCall,
        words: *mut TdWords,
        count: usize,
        loads: *mut TdLoad,
        room: usize,
    ) -> i32;
    fn td_c_close(s: *mut TdSession, full: bool);
}

/// A session. One call at a time is what `&mut` says.
struct Session(TdSession);

// A handle may go to another thread: what it owns is counted atomically, or is its own.
unsafe impl Send for Session {}

impl Session {
    fn closed() -> Session {
        Session(TdSession { at: std::ptr::null_mut(), full: false })
    }

    fn open(image: &[u8]) -> Result<Session, (i32, u64)> {
        let (mut s, mut fault) = (Session::closed(), TdFault { place: 0, rule: 0 });
        match unsafe { td_c_open_1(&mut s.0, false, image.as_ptr(), image.len(), &mut fault) } {
            0 => Ok(s),
            code => Err((code, fault.place)),
        }
    }

    fn again(&mut self) -> Result<Session, i32> {
        let mut other = Session::closed();
        match unsafe { td_c_again(&mut self.0, self.0.full, &mut other.0, false) } {
            0 => Ok(other),
            code => Err(code),
        }
    }

    fn entry(&mut self, name: &str) -> Option<u32> {
        let mut number = 0;
        let code = unsafe { td_c_entry(&mut self.0, self.0.full, name.as_ptr(), name.len(), &mut number) };
        (code == 0).then_some(number)
    }

    /// The loads are written into the rows, as far as there is room.
    fn validate(&mut self, words: &[AtomicU64], call: &mut TdCall, loads: &mut [TdLoad]) -> i32 {
        let (mut shared, full) = (TdWords { at: words.as_ptr(), count: words.len() }, self.0.full);
        unsafe { td_c_validate(&mut self.0, full, call, &mut shared, words.len(), loads.as_mut_ptr(), loads.len()) }
    }
}

/// The handle's slot stays (docs/c-library.md): sessions are kept, and not made without end.
impl Drop for Session {
    fn drop(&mut self) {
        unsafe { td_c_close(&mut self.0, self.0.full) }
    }
}

fn main() {
    let words_of = std::env::args().collect::<Vec<_>>();
    let [_, path, messages] = &words_of[..] else {
        panic!("usage: from_rust RNDIS_IMAGE MESSAGES")
    };
    let image = std::fs::read(path).expect("the image");
    let messages: u64 = messages.parse().expect("a number");
    assert_eq!(Session::open(&image[..9]).err(), Some((13, 9)));
    let mut first = Session::open(&image).expect("a session");
    let mut session = first.again().expect("another one");
    drop(first);
    let entry = session.entry("RNDIS").expect("the entry point");
    assert_eq!(session.entry("NOWHERE"), None);
    let words: Vec<AtomicU64> = (0..64).map(|_| AtomicU64::new(0)).collect();
    let is_over = AtomicBool::new(false);
    std::thread::scope(|scope| {
        scope.spawn(|| {
            let mut n = 0u64;
            while !is_over.load(Ordering::SeqCst) {
                n += 1;
                words[0].store(if n % 2 == 1 { 7 } else { 1 } | 512 << 32, Ordering::Relaxed);
                words[1].store(36 | (468 + n % 4) << 32, Ordering::Relaxed);
            }
        });
        let mut call: TdCall = unsafe { std::mem::zeroed() };
        let (mut seen, mut wrong, mut loads) = ([0u64; 2], 0, [TdLoad::default(); 8]);
        for _ in 0..messages {
            (call.entry, call.length, call.arg_count, call.args[0], call.cell_count) = (entry, 512, 1, 512, 5);
            call.cells = [0; 64];
            let code = session.validate(&words, &mut call, &mut loads);
            seen[code as usize] += 1;
            // What was tested is what was loaded, whatever the words hold by now.
            let tested = loads[0].value as u32 == call.cells[0] as u32;
            wrong += u64::from(code == 0 && (call.cells[3] + call.cells[4] > 512 || !tested));
        }
        is_over.store(true, Ordering::SeqCst);
        println!("rust accepted {} rejected {} wrong {wrong}", seen[0], seen[1]);
        assert_eq!(wrong, 0);
    });
}
