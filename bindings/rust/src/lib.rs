//! The entries of Heralinda for build tools in Rust: `search` lends a timing book and an output
//! to the library, `search_records` a list of tasks and an output.
//!
//! The library, `libhost.a` and `librecords.a`, is for x86-64. On other targets this package
//! compiles without the two functions, and a warning says so.

mod records;

#[cfg(target_arch = "x86_64")]
pub use records::search_records;
pub use records::{Found, Set, Task};

#[cfg(target_arch = "x86_64")]
extern "C" {
    fn heralinda_search(
        book: *const u8,
        book_length: usize,
        out: *mut u8,
        out_length: usize,
    ) -> u32;
}

/// What the entry answers.
#[derive(Clone, Copy, Debug, PartialEq, Eq)]
#[must_use]
pub enum Answer {
    /// 0: every row is placed. The output has verdict 1 and the order, from the highest level
    /// down.
    Order,
    /// 4: the search ended with rows unplaced. The output has verdict 2 and the blocked group.
    Blocked,
    /// Any other number: the output is as it was. 9, 10, 11, 12, 2, 1, 13 or 3 where the book
    /// cannot be read, 8 where the output is shorter than the book. `docs/NUMBERS.md` has the
    /// numbers.
    Refused(u32),
}

#[cfg(target_arch = "x86_64")]
impl Answer {
    fn of_number(number: u32) -> Answer {
        match number {
            0 => Answer::Order,
            4 => Answer::Blocked,
            number => Answer::Refused(number),
        }
    }
}

/// Reads the timing book, searches its table, and writes the same table with the verdict found
/// to `out`.
///
/// The form of the stored verdict is read too; then that verdict plays no part. `out` is as long
/// as the book or longer (a shorter one is 8); its later bytes stay. A refusal writes nothing,
/// except that a blocked table is written with its group. Nothing else is asked: any bytes of
/// any length get one documented answer.
///
/// ```
/// use heralinda::{search, Answer};
///
/// let book = std::fs::read("../../examples/k5.book")?;
/// let mut out = vec![0; book.len()];
/// match search(&book, &mut out) {
///     Answer::Order => println!("row {} has the highest level", out[6]),
///     Answer::Blocked => println!("blocked group: {:02x?}", &out[102..114]),
///     Answer::Refused(number) => println!("REFUSED {number}"),
/// }
/// # assert_eq!(out[5..10], [1, 1, 0, 2, 255]);
/// # Ok::<(), std::io::Error>(())
/// ```
#[cfg(target_arch = "x86_64")]
pub fn search(book: &[u8], out: &mut [u8]) -> Answer {
    // SAFETY: both pointers stand with the lengths of their slices, which live through the call;
    // `out` is borrowed alone, so the two do not overlap. The entry asks nothing else.
    let number =
        unsafe { heralinda_search(book.as_ptr(), book.len(), out.as_mut_ptr(), out.len()) };
    Answer::of_number(number)
}
