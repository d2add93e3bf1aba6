//! The search for callers that keep their tasks as records.

/// A task, in ticks of one microsecond. A row in range has 1 ≤ `c` ≤ `d` ≤ `t` ≤ 10,000,000.
#[derive(Clone, Copy, Debug, PartialEq, Eq)]
#[repr(C)]
pub struct Task {
    pub c: u32,
    pub d: u32,
    pub t: u32,
}

/// A set of rows: row 0 is the lowest bit of `low`, row 64 the lowest of `high`.
#[derive(Clone, Copy, Debug, Default, PartialEq, Eq)]
#[repr(C)]
pub struct Set {
    pub low: u64,
    pub high: u64,
}

/// What the search of a list of tasks answers. Parts that do not belong to its number are zero.
#[derive(Clone, Copy, Debug, PartialEq, Eq)]
#[repr(C)]
#[must_use]
pub struct Found {
    /// 0: every row is placed. 4: the search ended with rows unplaced. Any other number is a
    /// refusal: 1 where there are more than 96 tasks, 2 where `m` is not 1 to 32, 3 where a row
    /// is out of range, 8 where the output has fewer bytes than there are tasks.
    pub number: u32,
    /// With 3: the lowest row out of range.
    pub row: usize,
    /// With 4: the blocked group.
    pub group: Set,
    /// With 0 and 4: the tests made.
    pub tests: u64,
}

#[cfg(target_arch = "x86_64")]
extern "C" {
    fn heralinda_search_records(
        tasks: *const Task,
        task_count: usize,
        m: u32,
        out: *mut u8,
        out_length: usize,
    ) -> Found;
}

/// Searches a table that is kept as a list of tasks, row 0 first, on `m` cores.
///
/// With 0 the order stands at the start of `out`, a byte for each row from the highest level
/// down, and later bytes stay. With every other number `out` is as it was. Nothing is asked: any
/// tasks, as many as there are, get one documented answer.
///
/// ```
/// use heralinda::{search_records, Task};
///
/// let tasks = [
///     Task { c: 23, d: 33, t: 33 },
///     Task { c: 106, d: 210, t: 214 },
///     Task { c: 58, d: 216, t: 217 },
/// ];
/// let mut order = [0; 3];
/// let found = search_records(&tasks, 2, &mut order);
/// assert_eq!(found.number, 0);
/// assert_eq!(order, [1, 0, 2]);
/// ```
#[cfg(target_arch = "x86_64")]
pub fn search_records(tasks: &[Task], m: u32, out: &mut [u8]) -> Found {
    // SAFETY: both pointers stand with the lengths of their slices, which live through the call;
    // `out` is borrowed alone, so the two do not overlap. `Task` and `Found` are declared as the
    // entry declares them, with C's layout. The entry asks nothing else.
    unsafe { heralinda_search_records(tasks.as_ptr(), tasks.len(), m, out.as_mut_ptr(), out.len()) }
}
