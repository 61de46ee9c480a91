//! The calls over buffers that the caller lends, answered by [`Numbers`]. They take any bytes and any lengths, and allocate nothing.
//!
//! On 0 the first n bytes of the output hold the map and the rest are unchanged; on every other number the output is unchanged. On 0, 1 and 2 of a
//! find the first [`WORK`](crate::WORK) entries of the work are zero and the rest unchanged; on a refusal all are unchanged.
//!
//! Each `unsafe` block hands the library pointers and lengths of slices that are borrowed for the whole call, and it keeps none of them.
use crate::answers::Numbers;
use crate::ffi;

/// Identity: 0, 10 or 11.
pub fn identity(model: &[u8], map: &mut [u8]) -> Numbers {
    let mut carried = [0; 3];
    let number = unsafe { ffi::bizakoma_identity(model.as_ptr(), model.len(), map.as_mut_ptr(), map.len(), &mut carried) };
    Numbers { number, carried }
}

/// Check: 0, 10, 11, 13 to 18 or 20.
pub fn check(source: &[u8], target: &[u8], pairs: &[u8], map: &mut [u8]) -> Numbers {
    let mut carried = [0; 3];
    let number = unsafe {
        ffi::bizakoma_check(
            source.as_ptr(),
            source.len(),
            target.as_ptr(),
            target.len(),
            pairs.as_ptr(),
            pairs.len(),
            map.as_mut_ptr(),
            map.len(),
            &mut carried,
        )
    };
    Numbers { number, carried }
}

/// Apply: 0 with the image's representative, 10, 13, 14 or 19.
pub fn apply(source: &[u8], target: &[u8], map: &[u8], element: u8) -> Numbers {
    let mut carried = [0; 3];
    let number = unsafe {
        ffi::bizakoma_apply(source.as_ptr(), source.len(), target.as_ptr(), target.len(), map.as_ptr(), map.len(), element, &mut carried)
    };
    Numbers { number, carried }
}

/// Compose: 0, 10, 11, 13 or 19.
pub fn compose(source: &[u8], middle: &[u8], target: &[u8], first: &[u8], second: &[u8], map: &mut [u8]) -> Numbers {
    let mut carried = [0; 3];
    let number = unsafe {
        ffi::bizakoma_compose(
            source.as_ptr(),
            source.len(),
            middle.as_ptr(),
            middle.len(),
            target.as_ptr(),
            target.len(),
            first.as_ptr(),
            first.len(),
            second.as_ptr(),
            second.len(),
            map.as_mut_ptr(),
            map.len(),
            &mut carried,
        )
    };
    Numbers { number, carried }
}

/// Inverse: 0, 1, 10, 11, 13 or 19. The output has room for the target's elements.
pub fn inverse(source: &[u8], target: &[u8], map: &[u8], inverse: &mut [u8]) -> Numbers {
    let mut carried = [0; 3];
    let number = unsafe {
        ffi::bizakoma_inverse(
            source.as_ptr(),
            source.len(),
            target.as_ptr(),
            target.len(),
            map.as_ptr(),
            map.len(),
            inverse.as_mut_ptr(),
            inverse.len(),
            &mut carried,
        )
    };
    Numbers { number, carried }
}

/// Find: 0, 1 or 2 with the units used, 10 to 13.
pub fn find(left: &[u8], right: &[u8], budget: u64, map: &mut [u8], work: &mut [u16]) -> Numbers {
    let mut carried = [0; 3];
    let number = unsafe {
        ffi::bizakoma_find(
            left.as_ptr(),
            left.len(),
            right.as_ptr(),
            right.len(),
            budget,
            map.as_mut_ptr(),
            map.len(),
            work.as_mut_ptr(),
            work.len(),
            &mut carried,
        )
    };
    Numbers { number, carried }
}

/// Find with pairs: as find, and 14, 15 or 20.
pub fn find_with_pairs(left: &[u8], right: &[u8], pairs: &[u8], budget: u64, map: &mut [u8], work: &mut [u16]) -> Numbers {
    let mut carried = [0; 3];
    let number = unsafe {
        ffi::bizakoma_find_with_pairs(
            left.as_ptr(),
            left.len(),
            right.as_ptr(),
            right.len(),
            pairs.as_ptr(),
            pairs.len(),
            budget,
            map.as_mut_ptr(),
            map.len(),
            work.as_mut_ptr(),
            work.len(),
            &mut carried,
        )
    };
    Numbers { number, carried }
}

/// Find under a base: as find, and 19. The models are base, left, right.
#[allow(clippy::too_many_arguments)]
pub fn find_under(
    base: &[u8],
    left: &[u8],
    right: &[u8],
    to_left: &[u8],
    to_right: &[u8],
    budget: u64,
    map: &mut [u8],
    work: &mut [u16],
) -> Numbers {
    let mut carried = [0; 3];
    let number = unsafe {
        ffi::bizakoma_find_under(
            base.as_ptr(),
            base.len(),
            left.as_ptr(),
            left.len(),
            right.as_ptr(),
            right.len(),
            to_left.as_ptr(),
            to_left.len(),
            to_right.as_ptr(),
            to_right.len(),
            budget,
            map.as_mut_ptr(),
            map.len(),
            work.as_mut_ptr(),
            work.len(),
            &mut carried,
        )
    };
    Numbers { number, carried }
}
