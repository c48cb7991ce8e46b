//! The calls of the C interface as safe functions on slices, and the one place that declares them.
//! A lent slice is passed as its address and its length. The types of this crate stand on these.

/// How many bytes of its room the answer to a site step takes.
pub const SITE_ANSWER: usize = 6;
/// How many the answer to an event takes.
pub const RUN_ANSWER: usize = 4;
/// How many the answer to a day's journal takes.
pub const DAY_ANSWER: usize = 26;

/// The calls as C has them, for whoever holds addresses and not slices: a null pointer with length 0,
/// say.
///
/// # Safety
///
/// Each address with its length must be a slice as Rust has it, unless the length is 0: live until
/// the call returns, initialised, and aligned for its elements, so that `words` stands at a multiple
/// of eight. What is `*mut` must be there to write, too. The slices of one call must not overlap.
pub mod c {
    extern "C" {
        pub fn fj_site_step(
            site: *mut u8,
            site_len: usize,
            k: u8,
            o: u8,
            m: u8,
            v: u8,
            answer: *mut u8,
            answer_len: usize,
        ) -> u8;

        pub fn fj_run_fresh(n: u8, run: *mut u8, run_len: usize) -> u8;

        pub fn fj_run_event(
            run: *mut u8,
            run_len: usize,
            k: u8,
            s: u8,
            o: u8,
            m: u8,
            v: u8,
            x: u8,
            answer: *mut u8,
            answer_len: usize,
        ) -> u8;

        pub fn fj_run_journal(
            run: *mut u8,
            run_len: usize,
            journal: *const u8,
            journal_len: usize,
            answer: *mut u8,
            answer_len: usize,
        ) -> u8;

        pub fn fj_record_read(
            journal: *const u8,
            journal_len: usize,
            at: usize,
            fields: *mut u8,
            fields_len: usize,
        ) -> u8;

        pub fn fj_record_write(
            k: u8,
            s: u8,
            o: u8,
            m: u8,
            v: u8,
            x: u8,
            room: *mut u8,
            room_len: usize,
            at: usize,
        ) -> u8;

        pub fn fj_rehearse(
            input: *const u8,
            input_len: usize,
            text: *mut u8,
            text_len: usize,
        ) -> usize;

        pub fn fj_sheet_judge(
            sheet: *const u8,
            sheet_len: usize,
            words: *mut u64,
            words_len: usize,
            out: *mut u8,
            out_len: usize,
        ) -> u8;

        pub fn fj_sheet_report(
            sheet: *const u8,
            sheet_len: usize,
            words: *mut u64,
            words_len: usize,
            text: *mut u8,
            text_len: usize,
        ) -> usize;

        pub fn fj_sheet_parts(
            sheet: *const u8,
            sheet_len: usize,
            parts: *mut u8,
            parts_len: usize,
        ) -> u8;

        pub fn fj_sheet_write(
            parts: *const u8,
            parts_len: usize,
            room: *mut u8,
            room_len: usize,
        ) -> u8;
    }
}

/// One step of one site.
pub fn site_step(site: &mut [u8], k: u8, o: u8, m: u8, v: u8, answer: &mut [u8]) -> u8 {
    // SAFETY: both slices are live, distinct, and as long as said.
    unsafe {
        c::fj_site_step(
            site.as_mut_ptr(),
            site.len(),
            k,
            o,
            m,
            v,
            answer.as_mut_ptr(),
            answer.len(),
        )
    }
}

/// The fresh run of n sites.
pub fn run_fresh(n: u8, run: &mut [u8]) -> u8 {
    // SAFETY: the slice is live and as long as said.
    unsafe { c::fj_run_fresh(n, run.as_mut_ptr(), run.len()) }
}

/// One event of a run, with the fields K, S, O, M, V, X.
#[allow(clippy::too_many_arguments)]
pub fn run_event(
    run: &mut [u8],
    k: u8,
    s: u8,
    o: u8,
    m: u8,
    v: u8,
    x: u8,
    answer: &mut [u8],
) -> u8 {
    let (room, length) = (answer.as_mut_ptr(), answer.len());
    // SAFETY: both slices are live, distinct, and as long as said.
    unsafe { c::fj_run_event(run.as_mut_ptr(), run.len(), k, s, o, m, v, x, room, length) }
}

/// The events of a journal's records, one after another until one is refused.
pub fn run_journal(run: &mut [u8], journal: &[u8], answer: &mut [u8]) -> u8 {
    let (lent, count) = (run.as_mut_ptr(), run.len());
    let (room, length) = (answer.as_mut_ptr(), answer.len());
    // SAFETY: all slices are live, distinct, and as long as said.
    unsafe { c::fj_run_journal(lent, count, journal.as_ptr(), journal.len(), room, length) }
}

/// The fields of the record at a place of a journal.
pub fn record_read(journal: &[u8], at: usize, fields: &mut [u8]) -> u8 {
    let (room, length) = (fields.as_mut_ptr(), fields.len());
    // SAFETY: both slices are live, distinct, and as long as said.
    unsafe { c::fj_record_read(journal.as_ptr(), journal.len(), at, room, length) }
}

/// Writes the record of these fields at a place of the room.
#[allow(clippy::too_many_arguments)]
pub fn record_write(k: u8, s: u8, o: u8, m: u8, v: u8, x: u8, room: &mut [u8], at: usize) -> u8 {
    // SAFETY: the slice is live and as long as said.
    unsafe { c::fj_record_write(k, s, o, m, v, x, room.as_mut_ptr(), room.len(), at) }
}

/// The rehearsal's text; its length, or 0 where the room is too small.
pub fn rehearse(input: &[u8], text: &mut [u8]) -> usize {
    let (room, length) = (text.as_mut_ptr(), text.len());
    // SAFETY: both slices are live, distinct, and as long as said.
    unsafe { c::fj_rehearse(input.as_ptr(), input.len(), room, length) }
}

/// Judges a sheet; the reachable numbers go to the words, the judgement to `out`.
pub fn sheet_judge(sheet: &[u8], words: &mut [u64], out: &mut [u8]) -> u8 {
    let (lent, count) = (words.as_mut_ptr(), words.len());
    let (room, length) = (out.as_mut_ptr(), out.len());
    // SAFETY: all slices are live, distinct, and as long as said.
    unsafe { c::fj_sheet_judge(sheet.as_ptr(), sheet.len(), lent, count, room, length) }
}

/// The report's text; its length, or 0 where the room is too small.
pub fn sheet_report(sheet: &[u8], words: &mut [u64], text: &mut [u8]) -> usize {
    let (lent, count) = (words.as_mut_ptr(), words.len());
    let (room, length) = (text.as_mut_ptr(), text.len());
    // SAFETY: all slices are live, distinct, and as long as said.
    unsafe { c::fj_sheet_report(sheet.as_ptr(), sheet.len(), lent, count, room, length) }
}

/// The parts of a sheet.
pub fn sheet_parts(sheet: &[u8], parts: &mut [u8]) -> u8 {
    let (room, length) = (parts.as_mut_ptr(), parts.len());
    // SAFETY: both slices are live, distinct, and as long as said.
    unsafe { c::fj_sheet_parts(sheet.as_ptr(), sheet.len(), room, length) }
}

/// Writes the record of these parts at the front of the room.
pub fn sheet_write(parts: &[u8], room: &mut [u8]) -> u8 {
    let (room, length) = (room.as_mut_ptr(), room.len());
    // SAFETY: both slices are live, distinct, and as long as said.
    unsafe { c::fj_sheet_write(parts.as_ptr(), parts.len(), room, length) }
}
