//! The library's functions over slices that the caller lends. Each takes any lengths: the functions behind them are
//! proved for every slice, and what safe Rust lends is lawful.

/// A block as the table holds it. A hash is four numbers, 8 bytes each, low byte first.
#[repr(C)]
#[derive(Clone, Copy, PartialEq, Eq, Debug, Default)]
pub struct Slot {
    pub used: bool,
    pub digest: [u64; 4],
    pub round: u64,
    pub parent: [u64; 4],
    pub parent_round: u64,
}

mod c {
    use super::Slot;

    extern "C" {
        pub fn nickelhush_step(
            seat: *mut u16,
            seat_length: usize,
            core: *mut u64,
            core_length: usize,
            stakes: *mut u32,
            stakes_length: usize,
            votes: *mut u64,
            votes_length: usize,
            timeouts: *mut u64,
            timeouts_length: usize,
            table: *mut Slot,
            slots: usize,
            out: *mut u8,
            room: usize,
            record: *const u8,
            length: usize,
        ) -> u32;
        pub fn nickelhush_new(
            seat: *mut u16,
            seat_length: usize,
            core: *mut u64,
            core_length: usize,
            stakes: *mut u32,
            stakes_length: usize,
            votes: *mut u64,
            votes_length: usize,
            timeouts: *mut u64,
            timeouts_length: usize,
        );
        pub fn nickelhush_record(trace: *const u8, length: usize) -> usize;
        pub fn nickelhush_round(core: *const u64, core_length: usize) -> u64;
        pub fn nickelhush_last_voted(core: *const u64, core_length: usize) -> u64;
        pub fn nickelhush_last_committed(core: *const u64, core_length: usize) -> u64;
        pub fn nickelhush_size(part: u32) -> usize;
        pub fn nickelhush_room(slots: usize) -> usize;
    }
}

/// What a replica's memory consists of, beside the record.
pub struct Lent<'a> {
    pub seat: &'a mut [u16],
    pub core: &'a mut [u64],
    pub stakes: &'a mut [u32],
    pub votes: &'a mut [u64],
    pub timeouts: &'a mut [u64],
    pub table: &'a mut [Slot],
    pub out: &'a mut [u8],
}

/// The answer and the count in a result: what `nickelhush_answer` and `nickelhush_written` give, without a call.
#[inline]
fn parts(result: u32) -> (u16, usize) {
    (result as u16, (result >> 16) as usize)
}

/// One event: the answer's number, and how many bytes of `out` were written.
#[inline]
pub fn step(lent: &mut Lent, record: &[u8]) -> (u16, usize) {
    let m = lent;
    // SAFETY: each pointer and length is a slice's, the slices are apart, and the call keeps none of them.
    unsafe {
        let result = c::nickelhush_step(
            m.seat.as_mut_ptr(),
            m.seat.len(),
            m.core.as_mut_ptr(),
            m.core.len(),
            m.stakes.as_mut_ptr(),
            m.stakes.len(),
            m.votes.as_mut_ptr(),
            m.votes.len(),
            m.timeouts.as_mut_ptr(),
            m.timeouts.len(),
            m.table.as_mut_ptr(),
            m.table.len(),
            m.out.as_mut_ptr(),
            m.out.len(),
            record.as_ptr(),
            record.len(),
        );
        parts(result)
    }
}

/// The memory becomes that of a new replica, which counts as not started. The table and the output stay.
#[inline]
pub fn clear(lent: &mut Lent) {
    let m = lent;
    // SAFETY: as in `step`.
    unsafe {
        c::nickelhush_new(
            m.seat.as_mut_ptr(),
            m.seat.len(),
            m.core.as_mut_ptr(),
            m.core.len(),
            m.stakes.as_mut_ptr(),
            m.stakes.len(),
            m.votes.as_mut_ptr(),
            m.votes.len(),
            m.timeouts.as_mut_ptr(),
            m.timeouts.len(),
        )
    }
}

/// How many bytes the record at the front of a trace takes: 0 at the end, 1 where it is cut or too long.
#[inline]
pub fn record(trace: &[u8]) -> usize {
    // SAFETY: the pointer and the length are a slice's.
    unsafe { c::nickelhush_record(trace.as_ptr(), trace.len()) }
}

#[inline]
pub fn round(core: &[u64]) -> u64 {
    // SAFETY: as in `record`.
    unsafe { c::nickelhush_round(core.as_ptr(), core.len()) }
}

#[inline]
pub fn last_voted(core: &[u64]) -> u64 {
    // SAFETY: as in `record`.
    unsafe { c::nickelhush_last_voted(core.as_ptr(), core.len()) }
}

#[inline]
pub fn last_committed(core: &[u64]) -> u64 {
    // SAFETY: as in `record`.
    unsafe { c::nickelhush_last_committed(core.as_ptr(), core.len()) }
}

/// A size to lend, by the numbers of the header: 0 seat, 1 core, 2 stakes, 3 votes, 4 timeouts, 5 the most slots, 6 the
/// most bytes of a record after its length.
#[inline]
pub fn size(part: u32) -> usize {
    // SAFETY: numbers only.
    unsafe { c::nickelhush_size(part) }
}

/// The bytes of output to lend with a table of so many slots, and 0 where no table has so many.
#[inline]
pub fn room(slots: usize) -> usize {
    // SAFETY: numbers only.
    unsafe { c::nickelhush_room(slots) }
}

#[cfg(test)]
mod tests {
    extern "C" {
        fn nickelhush_answer(result: u32) -> u32;
        fn nickelhush_written(result: u32) -> usize;
    }

    #[test]
    fn parts_are_the_librarys() {
        for result in (0..=u32::MAX).step_by(65_521) {
            // SAFETY: numbers only.
            let library = unsafe { (nickelhush_answer(result), nickelhush_written(result)) };
            let (answer, written) = super::parts(result);
            assert_eq!((u32::from(answer), written), library);
        }
    }
}
