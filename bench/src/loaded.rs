//! A library of the board's calls loaded from a shared object, so that two of them can be measured in one run.
use crate::entry::{Enters, Entry};
use bayboard::{Board, Refusal};
use std::ffi::{c_char, c_int, c_void, CStr, CString};
use std::mem::transmute;

unsafe extern "C" {
    fn dlopen(path: *const c_char, flags: c_int) -> *mut c_void;
    fn dlsym(library: *mut c_void, name: *const c_char) -> *mut c_void;
    fn dlerror() -> *const c_char;
}

/// Everything is bound at once, so that no call is timed with its binding.
const NOW: c_int = 2;

/// To an entry, as in hosts/c/bayboard.h.
#[repr(C)]
struct Reply {
    accepted: bool,
    number: u64,
}

type Two = unsafe extern "C" fn(&mut Board, i32, i32) -> Reply;
type Three = unsafe extern "C" fn(&mut Board, i32, i32, i32) -> Reply;
type Four = unsafe extern "C" fn(&mut Board, i32, i32, i32, i32) -> Reply;

/// The calls on a checked board.
pub struct Library {
    addition: Four,
    arc: Two,
    mark: Two,
    cut: Three,
}

impl Library {
    /// The library of a shared object, for as long as the program runs.
    pub fn load(path: &str) -> &'static Library {
        let name = CString::new(path).expect("a path has no byte 0");
        // SAFETY: the name ends with a byte 0; what the object's constructors do is the business of who names it.
        let object = unsafe { dlopen(name.as_ptr(), NOW) };
        assert!(!object.is_null(), "{}", failure());
        // SAFETY: the object has these functions with these types, as hosts/c/bayboard_unchecked.h declares them.
        Box::leak(Box::new(unsafe {
            Library {
                addition: transmute::<*mut c_void, Four>(call(object, "addition")),
                arc: transmute::<*mut c_void, Two>(call(object, "arc")),
                mark: transmute::<*mut c_void, Two>(call(object, "mark")),
                cut: transmute::<*mut c_void, Three>(call(object, "cut")),
            }
        }))
    }
}

/// A function of the object.
fn call(object: *mut c_void, name: &str) -> *mut c_void {
    let name = CString::new(format!("bayboard_unchecked_{name}")).expect("no byte 0");
    // SAFETY: the object is loaded, and the name ends with a byte 0.
    let function = unsafe { dlsym(object, name.as_ptr()) };
    assert!(!function.is_null(), "{}", failure());
    function
}

fn failure() -> String {
    // SAFETY: after a failure there is a text, and it stays until the next call.
    let text = unsafe { CStr::from_ptr(dlerror()) };
    text.to_string_lossy().into_owned()
}

/// A board that a loaded library keeps.
#[derive(Clone)]
pub struct Loaded {
    library: &'static Library,
    board: Board,
}

impl Loaded {
    pub fn empty(library: &'static Library) -> Loaded {
        Loaded {
            library,
            board: Board::empty(),
        }
    }

    /// A board that some other implementation has made.
    pub fn on(library: &'static Library, board: Board) -> Loaded {
        assert!(board.passes(), "check 0 of {board:?}");
        Loaded { library, board }
    }
}

impl Enters for Loaded {
    #[inline(always)]
    fn enter(&mut self, entry: Entry) -> Result<(), Refusal> {
        let (library, board) = (self.library, &mut self.board);
        // SAFETY: only these calls have written the board since it was empty or passed check 0, so it passes check 0.
        let reply = unsafe {
            match entry {
                Entry::Addition {
                    length,
                    earliest,
                    latest,
                    mark,
                } => (library.addition)(board, length, earliest, latest, mark as i32),
                Entry::Arc { from, to } => (library.arc)(board, from as i32, to as i32),
                Entry::Mark { job, mark } => (library.mark)(board, job as i32, mark as i32),
                Entry::Cut {
                    job,
                    earliest,
                    latest,
                } => (library.cut)(board, job as i32, earliest, latest),
            }
        };
        match (reply.accepted, reply.number) {
            (true, _) => Ok(()),
            (false, 2) => Err(Refusal::Job),
            (false, 8) => Err(Refusal::Impossible),
            (false, number) => panic!("refusal {number} of {entry:?}"),
        }
    }

    fn kept(&self) -> Board {
        self.board
    }
}
