#![deny(unsafe_op_in_unsafe_fn)]
//! The Rust version for a C program: the services of `host/galzpuna.h` under
//! names of their own, for `host/fuzz`.

use std::slice;

/// Number and place, as `galzpuna_answer`.
#[repr(C)]
pub struct Answer {
    number: u32,
    place: u32,
}

impl From<reference::Answer> for Answer {
    fn from(answer: reference::Answer) -> Answer {
        let reference::Answer { number, place } = answer;
        Answer { number, place }
    }
}

/// Judging.
///
/// # Safety
///
/// As the host's header says.
#[no_mangle]
pub unsafe extern "C" fn rust_judge(
    map: *const u8,
    map_length: usize,
    placing: *const u8,
    placing_length: usize,
    plan: *const u8,
    plan_length: usize,
) -> Answer {
    // SAFETY: the host lends slices of these lengths, none at null.
    let (map, placing, plan) = unsafe {
        (
            slice::from_raw_parts(map, map_length),
            slice::from_raw_parts(placing, placing_length),
            slice::from_raw_parts(plan, plan_length),
        )
    };
    reference::judge(map, placing, plan).into()
}

/// A service that writes, as one of C.
macro_rules! writing {
    ($name:ident, $service:path) => {
        /// One of the services that write.
        ///
        /// # Safety
        ///
        /// As the host's header says.
        #[no_mangle]
        pub unsafe extern "C" fn $name(
            map: *const u8,
            map_length: usize,
            placing: *const u8,
            placing_length: usize,
            input: *const u8,
            input_length: usize,
            buffer: *mut u8,
            buffer_length: usize,
        ) -> Answer {
            // SAFETY: the host lends slices of these lengths, none at null,
            // and the buffer overlaps no other.
            let (map, placing, input, buffer) = unsafe {
                (
                    slice::from_raw_parts(map, map_length),
                    slice::from_raw_parts(placing, placing_length),
                    slice::from_raw_parts(input, input_length),
                    slice::from_raw_parts_mut(buffer, buffer_length),
                )
            };
            $service(map, placing, input, buffer).into()
        }
    };
}

writing!(rust_resolve, reference::resolve);
writing!(rust_draw, reference::draw);
writing!(rust_rounds, reference::rounds);
