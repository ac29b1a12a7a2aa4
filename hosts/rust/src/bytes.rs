//! A board as bytes, to store it, and back: the fields in their order, which leaves gaps nowhere but at the end, each number with its
//! least byte first. Hosts in other languages have the same bytes: the table is in hosts/c/bayboard.h.
use crate::version::assert_library;
use crate::{Board, Books};
use std::array::from_fn;
use std::mem::size_of;

impl Board {
    /// The bytes of a board.
    pub const BYTES: usize = size_of::<Board>();

    /// The board as the library has it, with 0 in the padding, so that equal boards have equal bytes. They keep their meaning as long as
    /// the version keeps its first number.
    #[must_use]
    pub fn to_bytes(&self) -> [u8; Board::BYTES] {
        let minutes = |all: [i32; Board::JOBS]| all.into_iter().flat_map(i32::to_le_bytes);
        let words = |all: [u64; Board::JOBS]| all.into_iter().flat_map(u64::to_le_bytes);
        let jobs = self.jobs.to_le_bytes().into_iter();
        let fields = jobs
            .chain(minutes(self.lengths))
            .chain(minutes(self.earliest))
            .chain(minutes(self.latest))
            .chain(self.marks)
            .chain(words(self.after))
            .chain(words(self.before))
            .chain(self.books.tally.to_le_bytes());
        let mut bytes = [0; Board::BYTES];
        for (byte, field) in bytes.iter_mut().zip(fields) {
            *byte = field;
        }
        bytes
    }

    /// The board of these bytes, whatever they are: its calls test it, and so does `Dock::try_from`.
    ///
    /// # Panics
    /// Where the library isn't one for this package: [`library_matches`](crate::library_matches).
    #[must_use]
    pub fn from_bytes(bytes: &[u8; Board::BYTES]) -> Board {
        assert_library();
        let rest = &mut bytes.iter();
        Board {
            jobs: usize::from_le_bytes(next(rest)),
            lengths: from_fn(|_| i32::from_le_bytes(next(rest))),
            earliest: from_fn(|_| i32::from_le_bytes(next(rest))),
            latest: from_fn(|_| i32::from_le_bytes(next(rest))),
            marks: next(rest),
            after: from_fn(|_| u64::from_le_bytes(next(rest))),
            before: from_fn(|_| u64::from_le_bytes(next(rest))),
            books: Books {
                tally: u32::from_le_bytes(next(rest)),
            },
        }
    }
}

fn next<const N: usize>(rest: &mut std::slice::Iter<u8>) -> [u8; N] {
    from_fn(|_| *rest.next().expect("a board has no more bytes than these"))
}
