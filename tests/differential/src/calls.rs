//! The calls of include/wumbyra.h, on slices.

mod c {
    extern "C" {
        pub fn wumbyra_version() -> u32;
        pub fn wumbyra_load(text: *const u8, text_len: usize) -> u64;
        pub fn wumbyra_parse(
            text: *const u8,
            text_len: usize,
            tape: *const u8,
            tape_len: usize,
            words: *mut u64,
            words_len: usize,
            code: *mut u8,
            code_len: usize,
        ) -> u64;
        pub fn wumbyra_flatten(
            text: *const u8,
            text_len: usize,
            code: *const u8,
            code_len: usize,
            count: u32,
            tape: *mut u8,
            tape_len: usize,
        ) -> u64;
        pub fn wumbyra_canonicalize(
            text: *const u8,
            text_len: usize,
            code: *const u8,
            code_len: usize,
            count: u32,
            tape: *mut u8,
            tape_len: usize,
            words: *mut u64,
            words_len: usize,
            canonical: *mut u8,
            canonical_len: usize,
        ) -> u64;
        pub fn wumbyra_span(
            text: *const u8,
            text_len: usize,
            tape: *const u8,
            tape_len: usize,
            code: *const u8,
            code_len: usize,
            count: u32,
            node: u32,
            visit: u32,
        ) -> u64;
        pub fn wumbyra_locate(
            text: *const u8,
            text_len: usize,
            tape: *const u8,
            tape_len: usize,
        ) -> u64;
        pub fn wumbyra_total(
            text: *const u8,
            text_len: usize,
            code: *const u8,
            code_len: usize,
            count: u32,
            account: u32,
        ) -> u64;
        pub fn wumbyra_totals(
            text: *const u8,
            text_len: usize,
            code: *const u8,
            code_len: usize,
            count: u32,
            litres: *mut u32,
            litres_len: usize,
        ) -> u64;
        pub fn wumbyra_term_totals(
            text: *const u8,
            text_len: usize,
            code: *const u8,
            code_len: usize,
            count: u32,
            start: u32,
            first: u32,
            last: u32,
            litres: *mut u32,
            litres_len: usize,
        ) -> u64;
        pub fn wumbyra_desk_open(
            text: *const u8,
            text_len: usize,
            desk: *mut u8,
            desk_len: usize,
            words: *mut u64,
            words_len: usize,
        ) -> u64;
        pub fn wumbyra_desk_put(
            text: *const u8,
            text_len: usize,
            desk: *mut u8,
            desk_len: usize,
            page: *const u8,
            page_len: usize,
            letters: *mut u8,
            letters_len: usize,
            words: *mut u64,
            words_len: usize,
        ) -> u64;
        pub fn wumbyra_desk_withdraw(
            text: *const u8,
            text_len: usize,
            desk: *mut u8,
            desk_len: usize,
            letters: *const u8,
            letters_len: usize,
        ) -> u64;
    }
}

// Each pointer below comes from a slice and is passed with its length. The
// calls keep none of them and write only to those that are `*mut`.

pub fn version() -> u32 {
    unsafe { c::wumbyra_version() }
}

pub fn load(text: &[u8]) -> u64 {
    unsafe { c::wumbyra_load(text.as_ptr(), text.len()) }
}

pub fn parse(text: &[u8], tape: &[u8], words: &mut [u64], code: &mut [u8]) -> u64 {
    unsafe {
        c::wumbyra_parse(
            text.as_ptr(),
            text.len(),
            tape.as_ptr(),
            tape.len(),
            words.as_mut_ptr(),
            words.len(),
            code.as_mut_ptr(),
            code.len(),
        )
    }
}

pub fn flatten(text: &[u8], code: &[u8], count: u32, tape: &mut [u8]) -> u64 {
    unsafe {
        c::wumbyra_flatten(
            text.as_ptr(),
            text.len(),
            code.as_ptr(),
            code.len(),
            count,
            tape.as_mut_ptr(),
            tape.len(),
        )
    }
}

pub fn canonicalize(
    text: &[u8],
    code: &[u8],
    count: u32,
    tape: &mut [u8],
    words: &mut [u64],
    canonical: &mut [u8],
) -> u64 {
    unsafe {
        c::wumbyra_canonicalize(
            text.as_ptr(),
            text.len(),
            code.as_ptr(),
            code.len(),
            count,
            tape.as_mut_ptr(),
            tape.len(),
            words.as_mut_ptr(),
            words.len(),
            canonical.as_mut_ptr(),
            canonical.len(),
        )
    }
}

pub fn span(text: &[u8], tape: &[u8], code: &[u8], count: u32, node: u32, visit: u32) -> u64 {
    unsafe {
        c::wumbyra_span(
            text.as_ptr(),
            text.len(),
            tape.as_ptr(),
            tape.len(),
            code.as_ptr(),
            code.len(),
            count,
            node,
            visit,
        )
    }
}

pub fn locate(text: &[u8], tape: &[u8]) -> u64 {
    unsafe { c::wumbyra_locate(text.as_ptr(), text.len(), tape.as_ptr(), tape.len()) }
}

pub fn total(text: &[u8], code: &[u8], count: u32, account: u32) -> u64 {
    unsafe {
        c::wumbyra_total(
            text.as_ptr(),
            text.len(),
            code.as_ptr(),
            code.len(),
            count,
            account,
        )
    }
}

pub fn totals(text: &[u8], code: &[u8], count: u32, litres: &mut [u32]) -> u64 {
    unsafe {
        c::wumbyra_totals(
            text.as_ptr(),
            text.len(),
            code.as_ptr(),
            code.len(),
            count,
            litres.as_mut_ptr(),
            litres.len(),
        )
    }
}

/// The dates are start, first and last, each as its number.
pub fn term_totals(
    text: &[u8],
    code: &[u8],
    count: u32,
    [start, first, last]: [u32; 3],
    litres: &mut [u32],
) -> u64 {
    unsafe {
        c::wumbyra_term_totals(
            text.as_ptr(),
            text.len(),
            code.as_ptr(),
            code.len(),
            count,
            start,
            first,
            last,
            litres.as_mut_ptr(),
            litres.len(),
        )
    }
}

pub fn desk_open(text: &[u8], desk: &mut [u8], words: &mut [u64]) -> u64 {
    unsafe {
        c::wumbyra_desk_open(
            text.as_ptr(),
            text.len(),
            desk.as_mut_ptr(),
            desk.len(),
            words.as_mut_ptr(),
            words.len(),
        )
    }
}

pub fn desk_put(
    text: &[u8],
    desk: &mut [u8],
    page: &[u8],
    letters: &mut [u8],
    words: &mut [u64],
) -> u64 {
    unsafe {
        c::wumbyra_desk_put(
            text.as_ptr(),
            text.len(),
            desk.as_mut_ptr(),
            desk.len(),
            page.as_ptr(),
            page.len(),
            letters.as_mut_ptr(),
            letters.len(),
            words.as_mut_ptr(),
            words.len(),
        )
    }
}

pub fn desk_withdraw(text: &[u8], desk: &mut [u8], letters: &[u8]) -> u64 {
    unsafe {
        c::wumbyra_desk_withdraw(
            text.as_ptr(),
            text.len(),
            desk.as_mut_ptr(),
            desk.len(),
            letters.as_ptr(),
            letters.len(),
        )
    }
}
