//! The proved picker: the whole run from the archive libsalghemu.a, and the
//! opening, a trial, the winner's indices and the reader of marks from
//! libprobe_pick.a.
//!
//! A state is 25 words, as `oracle::book::State::words` has them.

mod c {
    unsafe extern "C" {
        pub unsafe fn salghemu_run(
            options: *const u8,
            options_len: usize,
            marks: *const u8,
            marks_len: usize,
            stops: *const u8,
            stops_len: usize,
            trials: *const u8,
            trials_len: usize,
            winner: *mut u8,
            winner_len: usize,
            indices: *mut u8,
            indices_len: usize,
        ) -> u32;
        pub unsafe fn probe_open(
            options: *const u8,
            options_len: usize,
            marks: *const f64,
            marks_len: usize,
            stops: *const u32,
            stops_len: usize,
            state: *mut u64,
            state_len: usize,
        ) -> u32;
        pub unsafe fn probe_open_options(
            thresh: f64,
            confidence: f64,
            max_iters: u32,
            min_inliers: u32,
            refit: bool,
            ratio: f64,
            marks: *const f64,
            marks_len: usize,
            stops: *const u32,
            stops_len: usize,
            state: *mut u64,
            state_len: usize,
        ) -> u32;
        pub unsafe fn probe_new_options(thresh: f64, state: *mut u64, state_len: usize) -> u32;
    }
}

/// The calls that every family exports alike, each under its own name.
macro_rules! calls {
    ($trial:ident, $winner_indices:ident, $read_marks:ident) => {
        unsafe extern "C" {
            unsafe fn $trial(
                state: *const u64,
                state_len: usize,
                record: *const u8,
                record_len: usize,
                marks: *const f64,
                marks_len: usize,
                stops: *const u32,
                stops_len: usize,
                out: *mut u64,
                out_len: usize,
            ) -> u32;
            unsafe fn $winner_indices(
                state: *const u64,
                state_len: usize,
                marks: *const f64,
                marks_len: usize,
                indices: *mut u32,
                indices_len: usize,
            ) -> u64;
            unsafe fn $read_marks(
                bytes: *const u8,
                bytes_len: usize,
                numbers: *mut f64,
                numbers_len: usize,
            ) -> u32;
        }

        /// A trial, as words: the new state's, then which outcome, the
        /// refusal's number or the count, the rms's bits, and how many marks
        /// are beyond under the fit.
        pub fn trial(
            state: &[u64],
            record: &[u8],
            marks: &[f64],
            stops: &[u32],
            out: &mut [u64],
        ) -> u32 {
            // SAFETY: the pointers and lengths are those of slices, or NULL and
            // 0; the last is borrowed for this call alone.
            unsafe {
                $trial(
                    of(state),
                    state.len(),
                    of(record),
                    record.len(),
                    of(marks),
                    marks.len(),
                    of(stops),
                    stops.len(),
                    lent(out),
                    out.len(),
                )
            }
        }

        /// How many indices were written; 2^32 and more is a refusal.
        pub fn winner_indices(state: &[u64], marks: &[f64], indices: &mut [u32]) -> u64 {
            // SAFETY: as above.
            unsafe {
                $winner_indices(
                    of(state),
                    state.len(),
                    of(marks),
                    marks.len(),
                    lent(indices),
                    indices.len(),
                )
            }
        }

        /// The numbers of a file of marks, to the front of the lent list, which
        /// has [`NUMBERS`](crate::pick::NUMBERS) places: 0, or the refusal.
        pub fn read_marks(bytes: &[u8], numbers: &mut [f64]) -> u32 {
            // SAFETY: as above.
            unsafe { $read_marks(of(bytes), bytes.len(), lent(numbers), numbers.len()) }
        }
    };
}
pub(crate) use calls;

calls!(probe_trial, probe_winner_indices, probe_read_marks);

/// What a probe answers where a list for its words is too short, or one for
/// the numbers of marks has not [`NUMBERS`] places.
pub const NO_WORDS: u32 = u32::MAX;

/// The numbers of the longest file of marks, of either family.
pub const NUMBERS: usize = 8000;

/// A list's pointer; an empty one goes over as NULL, as a C caller's may.
pub(crate) fn of<T>(list: &[T]) -> *const T {
    if list.is_empty() {
        std::ptr::null()
    } else {
        list.as_ptr()
    }
}

/// The same for a list that is lent.
pub(crate) fn lent<T>(list: &mut [T]) -> *mut T {
    if list.is_empty() {
        std::ptr::null_mut()
    } else {
        list.as_mut_ptr()
    }
}

/// The whole run: 0, or the refusal.
pub fn salghemu_run(inputs: [&[u8]; 4], winner: &mut [u8], indices: &mut [u8]) -> u32 {
    let [options, marks, stops, trials] = inputs;
    // SAFETY: the pointers and lengths are those of slices, or NULL and 0; the
    // last two are borrowed for this call alone.
    unsafe {
        c::salghemu_run(
            of(options),
            options.len(),
            of(marks),
            marks.len(),
            of(stops),
            stops.len(),
            of(trials),
            trials.len(),
            lent(winner),
            winner.len(),
            lent(indices),
            indices.len(),
        )
    }
}

/// Opening from a record: 0, with the state's words written, or the refusal.
pub fn open(options: &[u8], marks: &[f64], stops: &[u32], state: &mut [u64]) -> u32 {
    // SAFETY: as above.
    unsafe {
        c::probe_open(
            of(options),
            options.len(),
            of(marks),
            marks.len(),
            of(stops),
            stops.len(),
            lent(state),
            state.len(),
        )
    }
}

/// The options as they are in the type.
#[derive(Clone, Copy, Debug)]
pub struct Options {
    pub thresh: f64,
    pub confidence: f64,
    pub max_iters: u32,
    pub min_inliers: u32,
    pub refit: bool,
    pub ratio: f64,
}

/// The same from the type.
pub fn open_options(options: Options, marks: &[f64], stops: &[u32], state: &mut [u64]) -> u32 {
    // SAFETY: as above.
    unsafe {
        c::probe_open_options(
            options.thresh,
            options.confidence,
            options.max_iters,
            options.min_inliers,
            options.refit,
            options.ratio,
            of(marks),
            marks.len(),
            of(stops),
            stops.len(),
            lent(state),
            state.len(),
        )
    }
}

/// The options with their defaults, to the first six words: the state's first
/// five, and the ratio.
pub fn new_options(thresh: f64, state: &mut [u64]) -> u32 {
    // SAFETY: as above.
    unsafe { c::probe_new_options(thresh, lent(state), state.len()) }
}
