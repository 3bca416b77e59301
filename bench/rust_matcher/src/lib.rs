//! Rust's regex crate for the bench: the whole text, with all groups or with none.
use regex::bytes::{CaptureLocations, Regex};
use std::ffi::{c_char, CStr};

pub struct Made {
    regex: Regex,
    groups: CaptureLocations,
}

#[no_mangle]
pub unsafe extern "C" fn rust_compile(expression: *const c_char) -> *mut Made {
    let expression = CStr::from_ptr(expression).to_str().unwrap_or("(");
    match Regex::new(&format!("(?-u)^(?:{expression})$")) {
        Ok(regex) => Box::into_raw(Box::new(Made { groups: regex.capture_locations(), regex })),
        Err(_) => std::ptr::null_mut(),
    }
}

#[no_mangle]
pub unsafe extern "C" fn rust_groups(made: *mut Made, tape: *const u8, n: usize) -> i32 {
    let made = &mut *made;
    let tape = std::slice::from_raw_parts(tape, n);
    made.regex.captures_read(&mut made.groups, tape).is_some() as i32
}

#[no_mangle]
pub unsafe extern "C" fn rust_whole(made: *mut Made, tape: *const u8, n: usize) -> i32 {
    (*made).regex.is_match(std::slice::from_raw_parts(tape, n)) as i32
}
