#![deny(unsafe_op_in_unsafe_fn)]
//! The proved library behind safe functions, with the services of
//! `reference`. All unsafe code is here.

mod exported;

use reference::Answer;

use exported::Writing;

/// Says whether a plan is cleared. Nothing is written.
pub fn judge(map: &[u8], placing: &[u8], plan: &[u8]) -> Answer {
    // SAFETY: the pointers and lengths are those of slices that are lent for
    // the call, and the library only reads them.
    let returned = unsafe {
        exported::galzpuna_judge(
            map.as_ptr(),
            map.len(),
            placing.as_ptr(),
            placing.len(),
            plan.as_ptr(),
            plan.len(),
        )
    };
    returned.into()
}

/// Writes the move list that carries a plan out.
pub fn resolve(map: &[u8], placing: &[u8], plan: &[u8], buffer: &mut [u8]) -> Answer {
    // SAFETY: the service is one of the library's.
    unsafe { write(exported::galzpuna_resolve, map, placing, plan, buffer) }
}

/// Writes the plan that a move list carries out.
pub fn draw(map: &[u8], placing: &[u8], moves: &[u8], buffer: &mut [u8]) -> Answer {
    // SAFETY: the service is one of the library's.
    unsafe { write(exported::galzpuna_draw, map, placing, moves, buffer) }
}

/// Writes the round of each move of a move list.
pub fn rounds(map: &[u8], placing: &[u8], moves: &[u8], buffer: &mut [u8]) -> Answer {
    // SAFETY: the service is one of the library's.
    unsafe { write(exported::galzpuna_rounds, map, placing, moves, buffer) }
}

/// Calls a service that writes.
///
/// # Safety
///
/// `service` is one of the library's.
unsafe fn write(
    service: Writing,
    map: &[u8],
    placing: &[u8],
    input: &[u8],
    buffer: &mut [u8],
) -> Answer {
    // SAFETY: the pointers and lengths are those of slices that are lent for
    // the call. The library writes to the buffer alone, and a buffer borrowed
    // mutably overlaps no other slice.
    let returned = unsafe {
        service(
            map.as_ptr(),
            map.len(),
            placing.as_ptr(),
            placing.len(),
            input.as_ptr(),
            input.len(),
            buffer.as_mut_ptr(),
            buffer.len(),
        )
    };
    returned.into()
}
