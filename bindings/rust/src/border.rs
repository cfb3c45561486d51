//! The exported functions of crate store, on slices, with their answers as they cross the border. The benchmark and second/soak.rs take this
//! file as it is.

/// An answer as ten numbers and the places of the chain, in the order of crates/store.
#[repr(C)]
#[derive(Clone, Copy, Debug, Default, PartialEq)]
pub struct Outcome {
    pub number: usize,
    pub place: usize,
    pub count: usize,
    pub condition: usize,
    pub element: usize,
    pub i: usize,
    pub j: usize,
    pub privilege: usize,
    pub forbidden: usize,
    pub chain_length: usize,
    pub chain: [u8; 17],
}

/// A sheet as two numbers, six of 32 bits, and the places of the leaders, in the order of crates/store.
#[repr(C)]
#[derive(Clone, Copy, Debug, Default, PartialEq)]
pub struct Sheet {
    pub number: usize,
    pub place: usize,
    pub clean: u32,
    pub insert_delete: u32,
    pub chain: u32,
    pub cycle: u32,
    pub refused: u32,
    pub leader_count: u32,
    pub leaders: [usize; 3],
}

// SAFETY of each call: a pointer, which in a slice is never NULL, and its length, from one slice that lives through the call; the borrows keep
// what it may write apart from the rest.

pub fn check_table(words: &[u16]) -> Outcome {
    unsafe { finnedscarf_check_table(words.as_ptr(), words.len()) }
}

pub fn read_dtd(text: &[u8], out: &mut [u16]) -> Outcome {
    unsafe { finnedscarf_read_dtd(text.as_ptr(), text.len(), out.as_mut_ptr(), out.len()) }
}

pub fn judge_policy(words: &[u16], marks: &[u8]) -> Outcome {
    unsafe { finnedscarf_judge_policy(words.as_ptr(), words.len(), marks.as_ptr(), marks.len()) }
}

pub fn complete(words: &[u16], marks: &[u8], out: &mut [u8]) -> Outcome {
    unsafe { finnedscarf_complete(words.as_ptr(), words.len(), marks.as_ptr(), marks.len(), out.as_mut_ptr(), out.len()) }
}

pub fn complete_roles(words: &[u16], marks: &[u8], numbers: &mut [u16], out: &mut [u8]) -> Outcome {
    unsafe {
        finnedscarf_complete_roles(
            words.as_ptr(),
            words.len(),
            marks.as_ptr(),
            marks.len(),
            numbers.as_mut_ptr(),
            numbers.len(),
            out.as_mut_ptr(),
            out.len(),
        )
    }
}

pub fn mend(words: &[u16], marks: &[u8], out: &mut [u8]) -> Outcome {
    unsafe { finnedscarf_mend(words.as_ptr(), words.len(), marks.as_ptr(), marks.len(), out.as_mut_ptr(), out.len()) }
}

pub fn judge_mend(words: &[u16], marks: &[u8], proposed: &[u8]) -> Outcome {
    unsafe {
        finnedscarf_judge_mend(words.as_ptr(), words.len(), marks.as_ptr(), marks.len(), proposed.as_ptr(), proposed.len())
    }
}

pub fn judge_maps(words: &[u16], allowed: &[u8], forbidden: &[u8]) -> Outcome {
    unsafe {
        finnedscarf_judge_maps(words.as_ptr(), words.len(), allowed.as_ptr(), allowed.len(), forbidden.as_ptr(), forbidden.len())
    }
}

pub fn complete_maps(words: &[u16], allowed: &[u8], forbidden: &[u8], out_allowed: &mut [u8], out_forbidden: &mut [u8]) -> Outcome {
    unsafe {
        finnedscarf_complete_maps(
            words.as_ptr(),
            words.len(),
            allowed.as_ptr(),
            allowed.len(),
            forbidden.as_ptr(),
            forbidden.len(),
            out_allowed.as_mut_ptr(),
            out_allowed.len(),
            out_forbidden.as_mut_ptr(),
            out_forbidden.len(),
        )
    }
}

pub fn mend_maps(words: &[u16], allowed: &[u8], forbidden: &[u8], out_allowed: &mut [u8], out_forbidden: &mut [u8]) -> Outcome {
    unsafe {
        finnedscarf_mend_maps(
            words.as_ptr(),
            words.len(),
            allowed.as_ptr(),
            allowed.len(),
            forbidden.as_ptr(),
            forbidden.len(),
            out_allowed.as_mut_ptr(),
            out_allowed.len(),
            out_forbidden.as_mut_ptr(),
            out_forbidden.len(),
        )
    }
}

pub fn judge_mend_maps(words: &[u16], allowed: &[u8], forbidden: &[u8], proposed_allowed: &[u8], proposed_forbidden: &[u8]) -> Outcome {
    unsafe {
        finnedscarf_judge_mend_maps(
            words.as_ptr(),
            words.len(),
            allowed.as_ptr(),
            allowed.len(),
            forbidden.as_ptr(),
            forbidden.len(),
            proposed_allowed.as_ptr(),
            proposed_allowed.len(),
            proposed_forbidden.as_ptr(),
            proposed_forbidden.len(),
        )
    }
}

pub fn carry_marks(
    old_words: &[u16],
    old_marks: &[u8],
    new_words: &[u16],
    new_numbers: &[u16],
    out: &mut [u8],
    lost: &mut [u8],
) -> Outcome {
    unsafe {
        finnedscarf_carry_marks(
            old_words.as_ptr(),
            old_words.len(),
            old_marks.as_ptr(),
            old_marks.len(),
            new_words.as_ptr(),
            new_words.len(),
            new_numbers.as_ptr(),
            new_numbers.len(),
            out.as_mut_ptr(),
            out.len(),
            lost.as_mut_ptr(),
            lost.len(),
        )
    }
}

pub fn month_sheet(words: &[u16], roles: u32, marks: &[u8], counts: &mut [u32]) -> Sheet {
    unsafe {
        finnedscarf_month_sheet(
            words.as_ptr(),
            words.len(),
            roles,
            marks.as_ptr(),
            marks.len(),
            counts.as_mut_ptr(),
            counts.len(),
        )
    }
}

pub fn add_sheets(words: &[u16], sheet: Sheet, counts: &mut [u32], more: Sheet, more_counts: &[u32]) -> Sheet {
    unsafe {
        finnedscarf_add_sheets(
            words.as_ptr(),
            words.len(),
            sheet,
            counts.as_mut_ptr(),
            counts.len(),
            more,
            more_counts.as_ptr(),
            more_counts.len(),
        )
    }
}

pub fn write_listing(text: &[u8], format: u16, marks: &[u8], out: &mut [u8]) -> Outcome {
    unsafe {
        finnedscarf_write_listing(text.as_ptr(), text.len(), format, marks.as_ptr(), marks.len(), out.as_mut_ptr(), out.len())
    }
}

pub fn read_listing(text: &[u8], format: u16, listing: &[u8], out: &mut [u8]) -> Outcome {
    unsafe {
        finnedscarf_read_listing(text.as_ptr(), text.len(), format, listing.as_ptr(), listing.len(), out.as_mut_ptr(), out.len())
    }
}

pub fn edit_mark(words: &[u16], marks: &mut [u8], kept: &mut [u16], privilege: usize, mark: u8) -> Outcome {
    unsafe {
        finnedscarf_edit_mark(
            words.as_ptr(),
            words.len(),
            marks.as_mut_ptr(),
            marks.len(),
            kept.as_mut_ptr(),
            kept.len(),
            privilege,
            mark,
        )
    }
}

#[link(name = "store", kind = "static")]
extern "C" {
    fn finnedscarf_check_table(words: *const u16, words_length: usize) -> Outcome;
    fn finnedscarf_read_dtd(text: *const u8, text_length: usize, out: *mut u16, out_length: usize) -> Outcome;
    fn finnedscarf_judge_policy(words: *const u16, words_length: usize, marks: *const u8, marks_length: usize) -> Outcome;
    fn finnedscarf_complete(
        words: *const u16,
        words_length: usize,
        marks: *const u8,
        marks_length: usize,
        out: *mut u8,
        out_length: usize,
    ) -> Outcome;
    fn finnedscarf_complete_roles(
        words: *const u16,
        words_length: usize,
        marks: *const u8,
        marks_length: usize,
        numbers: *mut u16,
        numbers_length: usize,
        out: *mut u8,
        out_length: usize,
    ) -> Outcome;
    fn finnedscarf_mend(
        words: *const u16,
        words_length: usize,
        marks: *const u8,
        marks_length: usize,
        out: *mut u8,
        out_length: usize,
    ) -> Outcome;
    fn finnedscarf_judge_mend(
        words: *const u16,
        words_length: usize,
        marks: *const u8,
        marks_length: usize,
        proposed: *const u8,
        proposed_length: usize,
    ) -> Outcome;
    fn finnedscarf_judge_maps(
        words: *const u16,
        words_length: usize,
        allowed: *const u8,
        allowed_length: usize,
        forbidden: *const u8,
        forbidden_length: usize,
    ) -> Outcome;
    fn finnedscarf_complete_maps(
        words: *const u16,
        words_length: usize,
        allowed: *const u8,
        allowed_length: usize,
        forbidden: *const u8,
        forbidden_length: usize,
        out_allowed: *mut u8,
        out_allowed_length: usize,
        out_forbidden: *mut u8,
        out_forbidden_length: usize,
    ) -> Outcome;
    fn finnedscarf_mend_maps(
        words: *const u16,
        words_length: usize,
        allowed: *const u8,
        allowed_length: usize,
        forbidden: *const u8,
        forbidden_length: usize,
        out_allowed: *mut u8,
        out_allowed_length: usize,
        out_forbidden: *mut u8,
        out_forbidden_length: usize,
    ) -> Outcome;
    fn finnedscarf_judge_mend_maps(
        words: *const u16,
        words_length: usize,
        allowed: *const u8,
        allowed_length: usize,
        forbidden: *const u8,
        forbidden_length: usize,
        proposed_allowed: *const u8,
        proposed_allowed_length: usize,
        proposed_forbidden: *const u8,
        proposed_forbidden_length: usize,
    ) -> Outcome;
    fn finnedscarf_carry_marks(
        old_words: *const u16,
        old_words_length: usize,
        old_marks: *const u8,
        old_marks_length: usize,
        new_words: *const u16,
        new_words_length: usize,
        new_numbers: *const u16,
        new_numbers_length: usize,
        out: *mut u8,
        out_length: usize,
        lost: *mut u8,
        lost_length: usize,
    ) -> Outcome;
    fn finnedscarf_month_sheet(
        words: *const u16,
        words_length: usize,
        roles: u32,
        marks: *const u8,
        marks_length: usize,
        counts: *mut u32,
        counts_length: usize,
    ) -> Sheet;
    fn finnedscarf_add_sheets(
        words: *const u16,
        words_length: usize,
        sheet: Sheet,
        counts: *mut u32,
        counts_length: usize,
        more: Sheet,
        more_counts: *const u32,
        more_counts_length: usize,
    ) -> Sheet;
    fn finnedscarf_write_listing(
        text: *const u8,
        text_length: usize,
        format: u16,
        marks: *const u8,
        marks_length: usize,
        out: *mut u8,
        out_length: usize,
    ) -> Outcome;
    fn finnedscarf_read_listing(
        text: *const u8,
        text_length: usize,
        format: u16,
        listing: *const u8,
        listing_length: usize,
        out: *mut u8,
        out_length: usize,
    ) -> Outcome;
    fn finnedscarf_edit_mark(
        words: *const u16,
        words_length: usize,
        marks: *mut u8,
        marks_length: usize,
        kept: *mut u16,
        kept_length: usize,
        privilege: usize,
        mark: u8,
    ) -> Outcome;
}
