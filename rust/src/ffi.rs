//! The functions of libbizakoma.a, as `include/bizakoma.h` declares them: a slice is a pointer and a length.

/// The three places for the values that a number carries.
pub type Carried = [u64; 3];

extern "C" {
    pub fn bizakoma_identity(model: *const u8, model_length: usize, map: *mut u8, map_length: usize, carried: *mut Carried) -> u32;

    pub fn bizakoma_check(
        source: *const u8,
        source_length: usize,
        target: *const u8,
        target_length: usize,
        pairs: *const u8,
        pairs_length: usize,
        map: *mut u8,
        map_length: usize,
        carried: *mut Carried,
    ) -> u32;

    pub fn bizakoma_apply(
        source: *const u8,
        source_length: usize,
        target: *const u8,
        target_length: usize,
        map: *const u8,
        map_length: usize,
        element: u8,
        carried: *mut Carried,
    ) -> u32;

    pub fn bizakoma_compose(
        source: *const u8,
        source_length: usize,
        middle: *const u8,
        middle_length: usize,
        target: *const u8,
        target_length: usize,
        first: *const u8,
        first_length: usize,
        second: *const u8,
        second_length: usize,
        map: *mut u8,
        map_length: usize,
        carried: *mut Carried,
    ) -> u32;

    pub fn bizakoma_inverse(
        source: *const u8,
        source_length: usize,
        target: *const u8,
        target_length: usize,
        map: *const u8,
        map_length: usize,
        inverse: *mut u8,
        inverse_length: usize,
        carried: *mut Carried,
    ) -> u32;

    pub fn bizakoma_find(
        left: *const u8,
        left_length: usize,
        right: *const u8,
        right_length: usize,
        budget: u64,
        map: *mut u8,
        map_length: usize,
        work: *mut u16,
        work_length: usize,
        carried: *mut Carried,
    ) -> u32;

    pub fn bizakoma_find_with_pairs(
        left: *const u8,
        left_length: usize,
        right: *const u8,
        right_length: usize,
        pairs: *const u8,
        pairs_length: usize,
        budget: u64,
        map: *mut u8,
        map_length: usize,
        work: *mut u16,
        work_length: usize,
        carried: *mut Carried,
    ) -> u32;

    pub fn bizakoma_find_under(
        base: *const u8,
        base_length: usize,
        left: *const u8,
        left_length: usize,
        right: *const u8,
        right_length: usize,
        to_left: *const u8,
        to_left_length: usize,
        to_right: *const u8,
        to_right_length: usize,
        budget: u64,
        map: *mut u8,
        map_length: usize,
        work: *mut u16,
        work_length: usize,
        carried: *mut Carried,
    ) -> u32;
}
