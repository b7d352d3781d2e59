//! The five calls on lent slices, as `include/selectors_vm.h` has them. The only unsafe code of this crate.
//!
//! The slices may hold anything: whatever bytes they have, a call is answered or refused, and a refused call changes
//! nothing (that is proved). So these functions are safe. [`crate::Machine`] owns the stores and is what most callers want;
//! these serve callers that keep the stores themselves.
#![allow(unsafe_code)]
#![allow(clippy::too_many_arguments)] // a slice for each store, as the C functions have them

use crate::Outline;

/// Cells of the state stores. A longer store is taken; a shorter one is refused (31).
pub const ROWS: usize = 3096;
/// Bytes of the name store.
pub const NAMES: usize = 49216;
/// Words of the id store.
pub const IDS: usize = 514;
/// Cells of the node store.
pub const NODES: usize = 6144;
/// Words of the instruction store for each node of the sheet.
pub const PLACE: usize = 8;

/// What a call is answered.
///
/// | `kind` | means | `value` |
/// |---|---|---|
/// | 0 | refused; `refusal` is the number | the place of a sheet's fault, else 0 |
/// | 1 | made | 0 |
/// | 2 | match | 1 if the element has content, else 0 |
/// | 3 | waits for attributes | 0 |
/// | 4 | end tag | elements that were popped |
/// | 5 | ids of the top open element | 0 |
/// | 6 | nothing is open | 0 |
///
/// Id i is bit i of `low`, or bit i - 64 of `high`; both are 0 unless `kind` is 2 or 5.
#[repr(C)]
#[derive(Clone, Copy, Debug, PartialEq, Eq)]
pub struct Told {
    /// Which answer it is.
    pub kind: u32,
    /// A refusal's number, else 0.
    pub refusal: u32,
    /// What goes with it.
    pub value: u64,
    /// Ids 0 to 63.
    pub low: u64,
    /// Ids 64 to 127.
    pub high: u64,
}

mod linked {
    use super::Told;

    // As crates/selectors_vm/src/lib.rt has them: each slice is a pointer and a number of elements.
    extern "C" {
        pub fn selectors_vm_fresh(
            sheet: *const u8,
            sheet_len: usize,
            program: *mut u32,
            program_len: usize,
            rows: *mut u32,
            rows_len: usize,
            names: *const u8,
            names_len: usize,
            ids: *const u64,
            ids_len: usize,
            nodes: *const u16,
            nodes_len: usize,
            esi: u32,
        ) -> Told;
        pub fn selectors_vm_start(
            sheet: *const u8,
            sheet_len: usize,
            program: *const u32,
            program_len: usize,
            rows: *mut u32,
            rows_len: usize,
            names: *mut u8,
            names_len: usize,
            ids: *mut u64,
            ids_len: usize,
            nodes: *mut u16,
            nodes_len: usize,
            namespace: u32,
            name: *const u8,
            name_len: usize,
        ) -> Told;
        pub fn selectors_vm_attributes(
            sheet: *const u8,
            sheet_len: usize,
            program: *const u32,
            program_len: usize,
            rows: *mut u32,
            rows_len: usize,
            names: *mut u8,
            names_len: usize,
            ids: *mut u64,
            ids_len: usize,
            nodes: *mut u16,
            nodes_len: usize,
            self_closing: u32,
            input: *const u8,
            input_len: usize,
            outlines: *const u32,
            outlines_len: usize,
        ) -> Told;
        pub fn selectors_vm_end(
            sheet: *const u8,
            sheet_len: usize,
            program: *const u32,
            program_len: usize,
            rows: *mut u32,
            rows_len: usize,
            names: *const u8,
            names_len: usize,
            ids: *const u64,
            ids_len: usize,
            nodes: *const u16,
            nodes_len: usize,
            name: *const u8,
            name_len: usize,
            popped: *mut u64,
            popped_len: usize,
        ) -> Told;
        pub fn selectors_vm_id_set(
            sheet: *const u8,
            sheet_len: usize,
            program: *const u32,
            program_len: usize,
            rows: *const u32,
            rows_len: usize,
            names: *const u8,
            names_len: usize,
            ids: *const u64,
            ids_len: usize,
            nodes: *const u16,
            nodes_len: usize,
        ) -> Told;
    }
}

/// The numbers of outlines, in place.
pub(crate) fn numbers(outlines: &[Outline]) -> &[u32] {
    // SAFETY: an `Outline` is `repr(C)` and four `u32`, so it has their alignment and no other bytes.
    unsafe { std::slice::from_raw_parts(outlines.as_ptr().cast(), 4 * outlines.len()) }
}

/// Makes a machine of a sheet, whatever its stores held.
pub fn fresh(
    sheet: &[u8],
    program: &mut [u32],
    rows: &mut [u32],
    names: &[u8],
    ids: &[u64],
    nodes: &[u16],
    esi: u32,
) -> Told {
    // SAFETY: every pointer comes from a slice with its length; written slices are borrowed as `&mut`, so none overlaps
    // another; the call keeps no pointer. The same holds for each call below.
    unsafe {
        linked::selectors_vm_fresh(
            sheet.as_ptr(),
            sheet.len(),
            program.as_mut_ptr(),
            program.len(),
            rows.as_mut_ptr(),
            rows.len(),
            names.as_ptr(),
            names.len(),
            ids.as_ptr(),
            ids.len(),
            nodes.as_ptr(),
            nodes.len(),
            esi,
        )
    }
}

/// A start tag, by its namespace (0 HTML, 1 SVG, 2 MathML) and its name.
pub fn start(
    sheet: &[u8],
    program: &[u32],
    rows: &mut [u32],
    names: &mut [u8],
    ids: &mut [u64],
    nodes: &mut [u16],
    namespace: u32,
    name: &[u8],
) -> Told {
    // SAFETY: as in `fresh`.
    unsafe {
        linked::selectors_vm_start(
            sheet.as_ptr(),
            sheet.len(),
            program.as_ptr(),
            program.len(),
            rows.as_mut_ptr(),
            rows.len(),
            names.as_mut_ptr(),
            names.len(),
            ids.as_mut_ptr(),
            ids.len(),
            nodes.as_mut_ptr(),
            nodes.len(),
            namespace,
            name.as_ptr(),
            name.len(),
        )
    }
}

/// The attributes of the tag that waits: its bytes, and outlines in fours (name start, name end, value start, value end).
pub fn attributes(
    sheet: &[u8],
    program: &[u32],
    rows: &mut [u32],
    names: &mut [u8],
    ids: &mut [u64],
    nodes: &mut [u16],
    self_closing: u32,
    input: &[u8],
    outlines: &[u32],
) -> Told {
    // SAFETY: as in `fresh`.
    unsafe {
        linked::selectors_vm_attributes(
            sheet.as_ptr(),
            sheet.len(),
            program.as_ptr(),
            program.len(),
            rows.as_mut_ptr(),
            rows.len(),
            names.as_mut_ptr(),
            names.len(),
            ids.as_mut_ptr(),
            ids.len(),
            nodes.as_mut_ptr(),
            nodes.len(),
            self_closing,
            input.as_ptr(),
            input.len(),
            outlines.as_ptr(),
            outlines.len(),
        )
    }
}

/// An end tag. Two id words for each popped element go to `popped`, in opening order; words past them stay.
pub fn end(
    sheet: &[u8],
    program: &[u32],
    rows: &mut [u32],
    names: &[u8],
    ids: &[u64],
    nodes: &[u16],
    name: &[u8],
    popped: &mut [u64],
) -> Told {
    // SAFETY: as in `fresh`.
    unsafe {
        linked::selectors_vm_end(
            sheet.as_ptr(),
            sheet.len(),
            program.as_ptr(),
            program.len(),
            rows.as_mut_ptr(),
            rows.len(),
            names.as_ptr(),
            names.len(),
            ids.as_ptr(),
            ids.len(),
            nodes.as_ptr(),
            nodes.len(),
            name.as_ptr(),
            name.len(),
            popped.as_mut_ptr(),
            popped.len(),
        )
    }
}

/// The id set of the top open element, never of the waiting tag.
pub fn id_set(
    sheet: &[u8],
    program: &[u32],
    rows: &[u32],
    names: &[u8],
    ids: &[u64],
    nodes: &[u16],
) -> Told {
    // SAFETY: as in `fresh`; nothing is written.
    unsafe {
        linked::selectors_vm_id_set(
            sheet.as_ptr(),
            sheet.len(),
            program.as_ptr(),
            program.len(),
            rows.as_ptr(),
            rows.len(),
            names.as_ptr(),
            names.len(),
            ids.as_ptr(),
            ids.len(),
            nodes.as_ptr(),
            nodes.len(),
        )
    }
}
