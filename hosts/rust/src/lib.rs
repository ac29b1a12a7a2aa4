//! The bay board for Rust: the board as a plain struct that the host keeps, with the calls that the paper names.
//!
//! Each call is proved, for every board and all numbers, to answer just what the paper says; the equations stand in
//! `crates/call_exports`. A [`Board`] is plain data, and each call on it includes check 0. A [`Dock`] holds a board that has passed
//! check 0 and that only its calls write, so that nothing has to be tested again.
//!
//! ```
//! use bayboard::{Dock, Mark, Refusal};
//!
//! let mut dock = Dock::new();
//! let dairy = dock.addition(45, 360, 480, Mark::Valid)?;
//! let van = dock.addition(30, 390, 540, Mark::Valid)?;
//! dock.arc(dairy, van)?;
//! assert_eq!(dock.row(van)?.earliest, 405);
//! assert_eq!(dock.cut(van, 360, 420), Err(Refusal::Impossible));
//! # Ok::<(), Refusal>(())
//! ```
//!
//! The library keeps nothing between calls, so that boards and docks may be sent to other threads and shared like other plain data. It
//! takes no memory from the heap, and 16 kilobytes of stack suffice for each of its calls.
#![deny(unsafe_code)]

mod answers;
mod board;
mod bytes;
mod calls;
#[allow(unsafe_code)]
mod dock;
#[allow(unsafe_code)]
mod ffi;
mod version;

pub use answers::{members, Arcs, Mark, Pair, Plan, Refusal, Row};
pub use board::{Board, Books};
pub use calls::Calls;
pub use dock::Dock;
pub use version::{library_matches, library_version, VERSION};
