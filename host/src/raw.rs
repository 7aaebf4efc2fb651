//! The entries as the library has them: a slice is a pointer and a length, `told` is eight numbers.
//!
//! What each one promises is in `include/pouchmeadow.h`. Pointers must be valid for their lengths, not null (also where the
//! length is 0), and what is written must overlap nothing else. `crate` has safe functions over them.

extern "C" {
    pub fn pouchmeadow_check_table(
        post: *const u16,
        post_length: usize,
        label: *const u16,
        label_length: usize,
        told: *mut u64,
    );
    pub fn pouchmeadow_check_query(
        variables: usize,
        head: *const u8,
        head_length: usize,
        labels: *const u16,
        labels_length: usize,
        axes: *const u8,
        axes_length: usize,
        told: *mut u64,
    );
    pub fn pouchmeadow_prune(
        post: *const u16,
        post_length: usize,
        label: *const u16,
        label_length: usize,
        variables: usize,
        head: *const u8,
        head_length: usize,
        labels: *const u16,
        labels_length: usize,
        axes: *const u8,
        axes_length: usize,
        sets: *mut u64,
        sets_length: usize,
        told: *mut u64,
    );
    pub fn pouchmeadow_yes_or_no(
        post: *const u16,
        post_length: usize,
        label: *const u16,
        label_length: usize,
        variables: usize,
        head: *const u8,
        head_length: usize,
        labels: *const u16,
        labels_length: usize,
        axes: *const u8,
        axes_length: usize,
        sets: *mut u64,
        sets_length: usize,
        told: *mut u64,
    );
    pub fn pouchmeadow_find_after(
        post: *const u16,
        post_length: usize,
        label: *const u16,
        label_length: usize,
        variables: usize,
        head: *const u8,
        head_length: usize,
        labels: *const u16,
        labels_length: usize,
        axes: *const u8,
        axes_length: usize,
        tuple: *const u16,
        tuple_length: usize,
        sets: *mut u64,
        sets_length: usize,
        found: *mut u16,
        found_length: usize,
        told: *mut u64,
    );
    pub fn pouchmeadow_list_answers(
        post: *const u16,
        post_length: usize,
        label: *const u16,
        label_length: usize,
        variables: usize,
        head: *const u8,
        head_length: usize,
        labels: *const u16,
        labels_length: usize,
        axes: *const u8,
        axes_length: usize,
        allowance: u64,
        sets: *mut u64,
        sets_length: usize,
        found: *mut u16,
        found_length: usize,
        told: *mut u64,
    );
    pub fn pouchmeadow_read_query(
        text: *const u8,
        text_length: usize,
        names: *mut u8,
        names_length: usize,
        head: *mut u8,
        labels: *mut u16,
        axes: *mut u8,
        told: *mut u64,
    );
    pub fn pouchmeadow_read_sentence(
        text: *const u8,
        text_length: usize,
        names: *const u8,
        names_length: usize,
        post: *mut u16,
        post_length: usize,
        label: *mut u16,
        label_length: usize,
        told: *mut u64,
    );
}
