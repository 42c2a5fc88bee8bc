//! What the proved library exports. A slice is a pointer and its length.

use reference::Answer;

/// Number and place, as the library returns them.
#[repr(C)]
pub struct Returned {
    number: u32,
    place: u32,
}

impl From<Returned> for Answer {
    fn from(Returned { number, place }: Returned) -> Answer {
        Answer { number, place }
    }
}

/// Map, placing, plan or move list, and the buffer.
pub type Writing = unsafe extern "C" fn(
    map: *const u8,
    map_length: usize,
    placing: *const u8,
    placing_length: usize,
    input: *const u8,
    input_length: usize,
    buffer: *mut u8,
    buffer_length: usize,
) -> Returned;

extern "C" {
    pub fn galzpuna_judge(
        map: *const u8,
        map_length: usize,
        placing: *const u8,
        placing_length: usize,
        plan: *const u8,
        plan_length: usize,
    ) -> Returned;

    pub fn galzpuna_resolve(
        map: *const u8,
        map_length: usize,
        placing: *const u8,
        placing_length: usize,
        plan: *const u8,
        plan_length: usize,
        buffer: *mut u8,
        buffer_length: usize,
    ) -> Returned;

    pub fn galzpuna_draw(
        map: *const u8,
        map_length: usize,
        placing: *const u8,
        placing_length: usize,
        moves: *const u8,
        moves_length: usize,
        buffer: *mut u8,
        buffer_length: usize,
    ) -> Returned;

    pub fn galzpuna_rounds(
        map: *const u8,
        map_length: usize,
        placing: *const u8,
        placing_length: usize,
        moves: *const u8,
        moves_length: usize,
        buffer: *mut u8,
        buffer_length: usize,
    ) -> Returned;
}
