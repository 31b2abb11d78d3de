//! The C interface of liblotamife.a, as include/lotamife.h has it.

extern "C" {
    pub fn lotamife_plan(
        n: usize,
        first: *const u16,
        first_len: usize,
        second: *const u16,
        second_len: usize,
        weight: *const i64,
        weight_len: usize,
        max_cardinality: bool,
        budget: u32,
        mates: *mut u16,
        mates_len: usize,
        duals: *mut i64,
        duals_len: usize,
        parents: *mut u16,
        parents_len: usize,
        place: *mut u32,
        steps: *mut u32,
    ) -> u32;

    pub fn lotamife_check(
        n: usize,
        first: *const u16,
        first_len: usize,
        second: *const u16,
        second_len: usize,
        weight: *const i64,
        weight_len: usize,
        max_cardinality: bool,
        mates: *const u16,
        mates_len: usize,
        duals: *const i64,
        duals_len: usize,
        parents: *const u16,
        parents_len: usize,
        place: *mut u32,
    ) -> u32;
}
