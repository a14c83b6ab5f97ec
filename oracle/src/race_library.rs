//! The proved library, loaded: include/mailindex.h on slices.

use std::ffi::{CString, c_char, c_int, c_void};
use std::mem::transmute;

unsafe extern "C" {
    fn dlopen(path: *const c_char, flags: c_int) -> *mut c_void;
    fn dlsym(library: *mut c_void, name: *const c_char) -> *mut c_void;
}

const RTLD_NOW: c_int = 2;

// The functions of include/mailindex.h: a session in one call, and by windows.
type Dissect = unsafe extern "C" fn(*const u8, usize, *mut u32, usize, *mut u64);
type Begin = unsafe extern "C" fn(*const u64, *mut u64, *mut u8) -> u32;
type Show = unsafe extern "C" fn(*mut u64, *mut u8, *const u8, usize, *mut u32, usize, *mut u64);

/// By the header's numbers, from 1.
const ENTRIES: [(u8, &str); 4] =
    [(b'S', "smtp_client"), (b's', "smtp_server"), (b'P', "pop3_server"), (b'I', "imap_client")];

pub const INCOMPLETE: u64 = 1;
pub const LONG_BOUNDARY: u64 = 12;
const CHOICES: usize = 8;
const ENTRY: usize = 0;
const STRICT: usize = 1;
const SESSION_NUMBERS: usize = 24;
const SESSION_BOUNDARIES: usize = 648;

pub struct Library {
    entries: Vec<Dissect>,
    begin: Begin,
    show: Show,
}

/// A session between windows.
pub struct Session {
    numbers: [u64; SESSION_NUMBERS],
    boundaries: [u8; SESSION_BOUNDARIES],
}

/// A function of the library, by its name behind `mailindex_`.
fn function(library: *mut c_void, name: &str) -> Result<*mut c_void, String> {
    let symbol = CString::new(format!("mailindex_{name}")).map_err(|why| why.to_string())?;
    let found = unsafe { dlsym(library, symbol.as_ptr()) };
    if found.is_null() {
        Err(format!("the library has no mailindex_{name}"))
    } else {
        Ok(found)
    }
}

fn number_of(entry: u8) -> usize {
    ENTRIES.iter().position(|(letter, _)| *letter == entry).expect("an entry's letter") + 1
}

impl Library {
    pub fn open(path: &str) -> Result<Library, String> {
        let name = CString::new(path).map_err(|why| why.to_string())?;
        let library = unsafe { dlopen(name.as_ptr(), RTLD_NOW) };
        if library.is_null() {
            return Err(format!("{path} cannot be loaded"));
        }
        let mut entries = Vec::new();
        for (_, name) in ENTRIES {
            entries.push(unsafe { transmute::<*mut c_void, Dissect>(function(library, name)?) });
        }
        let begin = unsafe { transmute::<*mut c_void, Begin>(function(library, "begin")?) };
        let show = unsafe { transmute::<*mut c_void, Show>(function(library, "show")?) };
        Ok(Library { entries, begin, show })
    }

    /// Result, place and count; the events are in the table.
    pub fn dissect(&self, entry: u8, bytes: &[u8], table: &mut [u32]) -> [u64; 3] {
        let call = self.entries[number_of(entry) - 1];
        let mut answer = [0; 3];
        unsafe { call(bytes.as_ptr(), bytes.len(), table.as_mut_ptr(), table.len(), answer.as_mut_ptr()) };
        answer
    }

    pub fn begin(&self, entry: u8, strict: bool) -> Session {
        let mut choices = [0; CHOICES];
        choices[ENTRY] = number_of(entry) as u64;
        choices[STRICT] = u64::from(strict);
        let mut session = Session {
            numbers: [0; SESSION_NUMBERS],
            boundaries: [0; SESSION_BOUNDARIES],
        };
        unsafe { (self.begin)(choices.as_ptr(), session.numbers.as_mut_ptr(), session.boundaries.as_mut_ptr()) };
        session
    }

    /// Result, place, count, and how many bytes of the window were taken.
    pub fn show(&self, session: &mut Session, window: &[u8], table: &mut [u32]) -> [u64; 4] {
        let (numbers, boundaries) = (session.numbers.as_mut_ptr(), session.boundaries.as_mut_ptr());
        let mut answer = [0; 4];
        unsafe {
            (self.show)(
                numbers,
                boundaries,
                window.as_ptr(),
                window.len(),
                table.as_mut_ptr(),
                table.len(),
                answer.as_mut_ptr(),
            )
        };
        answer
    }
}
