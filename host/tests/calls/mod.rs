//! The library's entries on slices, each with what it told. `told` holds other numbers before, so each word must be written.
#![allow(dead_code)]

#[cfg(not(target_arch = "x86_64"))]
mod emulated;

use crate::by_definition::asking::Lent;
use crate::by_definition::texts::QueryBuffers;
use pouchmeadow::raw;

fn tells(call: impl FnOnce(*mut u64)) -> [u64; 8] {
    let mut told = [0xdead_beef_0bad_cafe; 8];
    call(told.as_mut_ptr());
    told
}

pub fn check_table(post: &[u16], label: &[u16]) -> [u64; 8] {
    tells(|told| unsafe { raw::pouchmeadow_check_table(post.as_ptr(), post.len(), label.as_ptr(), label.len(), told) })
}

pub fn check_query(q: &Lent) -> [u64; 8] {
    tells(|told| unsafe {
        raw::pouchmeadow_check_query(
            q.variables,
            q.head.as_ptr(),
            q.head.len(),
            q.labels.as_ptr(),
            q.labels.len(),
            q.axes.as_ptr(),
            q.axes.len(),
            told,
        )
    })
}

pub fn prune(post: &[u16], label: &[u16], q: &Lent, sets: &mut [u64]) -> [u64; 8] {
    tells(|told| unsafe {
        raw::pouchmeadow_prune(
            post.as_ptr(),
            post.len(),
            label.as_ptr(),
            label.len(),
            q.variables,
            q.head.as_ptr(),
            q.head.len(),
            q.labels.as_ptr(),
            q.labels.len(),
            q.axes.as_ptr(),
            q.axes.len(),
            sets.as_mut_ptr(),
            sets.len(),
            told,
        )
    })
}

pub fn yes_or_no(post: &[u16], label: &[u16], q: &Lent, sets: &mut [u64]) -> [u64; 8] {
    tells(|told| unsafe {
        raw::pouchmeadow_yes_or_no(
            post.as_ptr(),
            post.len(),
            label.as_ptr(),
            label.len(),
            q.variables,
            q.head.as_ptr(),
            q.head.len(),
            q.labels.as_ptr(),
            q.labels.len(),
            q.axes.as_ptr(),
            q.axes.len(),
            sets.as_mut_ptr(),
            sets.len(),
            told,
        )
    })
}

pub fn find_after(
    post: &[u16],
    label: &[u16],
    q: &Lent,
    tuple: &[u16],
    sets: &mut [u64],
    found: &mut [u16],
) -> [u64; 8] {
    tells(|told| unsafe {
        raw::pouchmeadow_find_after(
            post.as_ptr(),
            post.len(),
            label.as_ptr(),
            label.len(),
            q.variables,
            q.head.as_ptr(),
            q.head.len(),
            q.labels.as_ptr(),
            q.labels.len(),
            q.axes.as_ptr(),
            q.axes.len(),
            tuple.as_ptr(),
            tuple.len(),
            sets.as_mut_ptr(),
            sets.len(),
            found.as_mut_ptr(),
            found.len(),
            told,
        )
    })
}

pub fn list_answers(
    post: &[u16],
    label: &[u16],
    q: &Lent,
    allowance: u64,
    sets: &mut [u64],
    found: &mut [u16],
) -> [u64; 8] {
    tells(|told| unsafe {
        raw::pouchmeadow_list_answers(
            post.as_ptr(),
            post.len(),
            label.as_ptr(),
            label.len(),
            q.variables,
            q.head.as_ptr(),
            q.head.len(),
            q.labels.as_ptr(),
            q.labels.len(),
            q.axes.as_ptr(),
            q.axes.len(),
            allowance,
            sets.as_mut_ptr(),
            sets.len(),
            found.as_mut_ptr(),
            found.len(),
            told,
        )
    })
}

pub fn read_query(text: &[u8], buffers: &mut QueryBuffers) -> [u64; 8] {
    tells(|told| unsafe {
        raw::pouchmeadow_read_query(
            text.as_ptr(),
            text.len(),
            buffers.names.as_mut_ptr(),
            buffers.names.len(),
            buffers.head.as_mut_ptr(),
            buffers.labels.as_mut_ptr(),
            buffers.axes.as_mut_ptr(),
            told,
        )
    })
}

pub fn read_sentence(text: &[u8], names: &[u8], post: &mut [u16], label: &mut [u16]) -> [u64; 8] {
    tells(|told| unsafe {
        raw::pouchmeadow_read_sentence(
            text.as_ptr(),
            text.len(),
            names.as_ptr(),
            names.len(),
            post.as_mut_ptr(),
            post.len(),
            label.as_mut_ptr(),
            label.len(),
            told,
        )
    })
}
