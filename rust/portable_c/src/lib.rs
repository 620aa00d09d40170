// Made by scripts/portable from the exports of crates/shuntberry.

//! The calls of `shuntberry.h` over the proved source. A slice is a pointer and a length here, so this is the only unsafe code of the two packages: each function
//! makes slices of what it was lent, and calls the one of the same name.
//!
//! In WebAssembly structs go through memory in both directions, since its ABIs differ in how they are handed over: the answer is written to `answer`.

use core::ptr::NonNull;
use core::slice::{from_raw_parts, from_raw_parts_mut};

/// What was lent. Where that is nothing the pointer may be anything, null too.
unsafe fn lent<'a, T>(at: *const T, length: usize) -> &'a [T] {
    if length == 0 {
        return &[];
    }
    from_raw_parts(at, length)
}

/// What was lent to be written.
unsafe fn lent_mut<'a, T>(at: *mut T, length: usize) -> &'a mut [T] {
    let at = if length == 0 { NonNull::dangling().as_ptr() } else { at };
    from_raw_parts_mut(at, length)
}

#[cfg(not(target_family = "wasm"))]
pub mod c {
    use super::{lent, lent_mut};
    use shuntberry_portable as portable;

    /// # Safety
    /// Each pointer is to as many as its length says, or to one.
    #[no_mangle]
    pub unsafe extern "C" fn shuntberry_version() -> u32 {
        portable::shuntberry_version()
    }

    /// # Safety
    /// Each pointer is to as many as its length says, or to one.
    #[no_mangle]
    pub unsafe extern "C" fn shuntberry_decide(
        store: *const u64,
        store_len: usize,
        n: usize,
        g: usize,
        allowance: usize,
        path: *mut u16,
        path_len: usize,
    ) -> portable::DecisionFields {
        portable::shuntberry_decide(lent(store, store_len), n, g, allowance, lent_mut(path, path_len))
    }

    /// # Safety
    /// Each pointer is to as many as its length says, or to one.
    #[no_mangle]
    pub unsafe extern "C" fn shuntberry_check(
        input: *const u8,
        input_len: usize,
        site: usize,
        text: *mut u8,
        text_len: usize,
    ) -> portable::CheckedFields {
        portable::shuntberry_check(lent(input, input_len), site, lent_mut(text, text_len))
    }

    /// # Safety
    /// Each pointer is to as many as its length says, or to one.
    #[no_mangle]
    pub unsafe extern "C" fn shuntberry_shortest_path(
        store: *const u64,
        store_len: usize,
        n: usize,
        g: usize,
        path: *mut u16,
        path_len: usize,
    ) -> portable::ShortestFields {
        portable::shuntberry_shortest_path(lent(store, store_len), n, g, lent_mut(path, path_len))
    }

    /// # Safety
    /// Each pointer is to as many as its length says, or to one.
    #[no_mangle]
    pub unsafe extern "C" fn shuntberry_distances(
        store: *const u64,
        store_len: usize,
        n: usize,
        g: usize,
        distances: *mut u16,
        distances_len: usize,
    ) -> u32 {
        portable::shuntberry_distances(lent(store, store_len), n, g, lent_mut(distances, distances_len))
    }

    /// # Safety
    /// Each pointer is to as many as its length says, or to one.
    #[no_mangle]
    pub unsafe extern "C" fn shuntberry_within(
        store: *const u64,
        store_len: usize,
        n: usize,
        g: usize,
        k: usize,
    ) -> portable::WithinFields {
        portable::shuntberry_within(lent(store, store_len), n, g, k)
    }

    /// # Safety
    /// Each pointer is to as many as its length says, or to one.
    #[no_mangle]
    pub unsafe extern "C" fn shuntberry_read(
        input: *const u8,
        input_len: usize,
        site: usize,
        store: *mut u64,
        store_len: usize,
    ) -> portable::TableFields {
        portable::shuntberry_read(lent(input, input_len), site, lent_mut(store, store_len))
    }

    /// # Safety
    /// Each pointer is to as many as its length says, or to one.
    #[no_mangle]
    pub unsafe extern "C" fn shuntberry_write(
        store: *const u64,
        store_len: usize,
        n: usize,
        g: usize,
        site: usize,
        output: *mut u8,
        output_len: usize,
    ) -> portable::FileFields {
        portable::shuntberry_write(lent(store, store_len), n, g, site, lent_mut(output, output_len))
    }

    /// # Safety
    /// Each pointer is to as many as its length says, or to one.
    #[no_mangle]
    pub unsafe extern "C" fn shuntberry_rewrite(
        input: *const u8,
        input_len: usize,
        output: *mut u8,
        output_len: usize,
    ) -> portable::FileFields {
        portable::shuntberry_rewrite(lent(input, input_len), lent_mut(output, output_len))
    }

    /// # Safety
    /// Each pointer is to as many as its length says, or to one.
    #[no_mangle]
    pub unsafe extern "C" fn shuntberry_generate(
        seed: u32,
        n: usize,
        fan_out: usize,
        store: *mut u64,
        store_len: usize,
    ) -> u32 {
        portable::shuntberry_generate(seed, n, fan_out, lent_mut(store, store_len))
    }

    /// # Safety
    /// Each pointer is to as many as its length says, or to one.
    #[no_mangle]
    pub unsafe extern "C" fn shuntberry_replay(
        store: *const u64,
        store_len: usize,
        n: usize,
        g: usize,
        log: *const u8,
        log_len: usize,
    ) -> portable::ReplayFields {
        portable::shuntberry_replay(lent(store, store_len), n, g, lent(log, log_len))
    }

    /// # Safety
    /// Each pointer is to as many as its length says, or to one.
    #[no_mangle]
    pub unsafe extern "C" fn shuntberry_open(
        store: *const u64,
        store_len: usize,
        n: usize,
        g: usize,
    ) -> portable::SessionFields {
        portable::shuntberry_open(lent(store, store_len), n, g)
    }

    /// # Safety
    /// Each pointer is to as many as its length says, or to one.
    #[no_mangle]
    pub unsafe extern "C" fn shuntberry_add_step(
        store: *mut u64,
        store_len: usize,
        n: usize,
        g: usize,
        reachable: portable::SetFields,
        from: usize,
        to: usize,
    ) -> portable::SessionFields {
        portable::shuntberry_add_step(lent_mut(store, store_len), n, g, reachable, from, to)
    }

    /// # Safety
    /// Each pointer is to as many as its length says, or to one.
    #[no_mangle]
    pub unsafe extern "C" fn shuntberry_remove_step(
        store: *mut u64,
        store_len: usize,
        n: usize,
        g: usize,
        reachable: portable::SetFields,
        from: usize,
        to: usize,
    ) -> portable::SessionFields {
        portable::shuntberry_remove_step(lent_mut(store, store_len), n, g, reachable, from, to)
    }

    /// # Safety
    /// Each pointer is to as many as its length says, or to one.
    #[no_mangle]
    pub unsafe extern "C" fn shuntberry_decide_modal(
        store: *const u64,
        store_len: usize,
        n: usize,
        g: usize,
        possible: *const u64,
        possible_len: usize,
        path: *mut u16,
        path_len: usize,
    ) -> portable::ModalFields {
        portable::shuntberry_decide_modal(lent(store, store_len), n, g, lent(possible, possible_len), lent_mut(path, path_len))
    }

    /// # Safety
    /// Each pointer is to as many as its length says, or to one.
    #[no_mangle]
    pub unsafe extern "C" fn shuntberry_next_open(
        time: usize,
        windows: *const u64,
        windows_len: usize,
        closed_days: *const u32,
        closed_days_len: usize,
    ) -> portable::MinuteFields {
        portable::shuntberry_next_open(time, lent(windows, windows_len), lent(closed_days, closed_days_len))
    }
}

#[cfg(target_family = "wasm")]
pub mod wasm {
    use super::{lent, lent_mut};
    use shuntberry_portable as portable;

    /// # Safety
    /// Each pointer is to as many as its length says, or to one.
    #[no_mangle]
    pub unsafe extern "C" fn shuntberry_version(
        answer: *mut u32,
    ) {
        *answer = portable::shuntberry_version();
    }

    /// # Safety
    /// Each pointer is to as many as its length says, or to one.
    #[no_mangle]
    pub unsafe extern "C" fn shuntberry_decide(
        answer: *mut portable::DecisionFields,
        store: *const u64,
        store_len: usize,
        n: usize,
        g: usize,
        allowance: usize,
        path: *mut u16,
        path_len: usize,
    ) {
        *answer = portable::shuntberry_decide(lent(store, store_len), n, g, allowance, lent_mut(path, path_len));
    }

    /// # Safety
    /// Each pointer is to as many as its length says, or to one.
    #[no_mangle]
    pub unsafe extern "C" fn shuntberry_check(
        answer: *mut portable::CheckedFields,
        input: *const u8,
        input_len: usize,
        site: usize,
        text: *mut u8,
        text_len: usize,
    ) {
        *answer = portable::shuntberry_check(lent(input, input_len), site, lent_mut(text, text_len));
    }

    /// # Safety
    /// Each pointer is to as many as its length says, or to one.
    #[no_mangle]
    pub unsafe extern "C" fn shuntberry_shortest_path(
        answer: *mut portable::ShortestFields,
        store: *const u64,
        store_len: usize,
        n: usize,
        g: usize,
        path: *mut u16,
        path_len: usize,
    ) {
        *answer = portable::shuntberry_shortest_path(lent(store, store_len), n, g, lent_mut(path, path_len));
    }

    /// # Safety
    /// Each pointer is to as many as its length says, or to one.
    #[no_mangle]
    pub unsafe extern "C" fn shuntberry_distances(
        answer: *mut u32,
        store: *const u64,
        store_len: usize,
        n: usize,
        g: usize,
        distances: *mut u16,
        distances_len: usize,
    ) {
        *answer = portable::shuntberry_distances(lent(store, store_len), n, g, lent_mut(distances, distances_len));
    }

    /// # Safety
    /// Each pointer is to as many as its length says, or to one.
    #[no_mangle]
    pub unsafe extern "C" fn shuntberry_within(
        answer: *mut portable::WithinFields,
        store: *const u64,
        store_len: usize,
        n: usize,
        g: usize,
        k: usize,
    ) {
        *answer = portable::shuntberry_within(lent(store, store_len), n, g, k);
    }

    /// # Safety
    /// Each pointer is to as many as its length says, or to one.
    #[no_mangle]
    pub unsafe extern "C" fn shuntberry_read(
        answer: *mut portable::TableFields,
        input: *const u8,
        input_len: usize,
        site: usize,
        store: *mut u64,
        store_len: usize,
    ) {
        *answer = portable::shuntberry_read(lent(input, input_len), site, lent_mut(store, store_len));
    }

    /// # Safety
    /// Each pointer is to as many as its length says, or to one.
    #[no_mangle]
    pub unsafe extern "C" fn shuntberry_write(
        answer: *mut portable::FileFields,
        store: *const u64,
        store_len: usize,
        n: usize,
        g: usize,
        site: usize,
        output: *mut u8,
        output_len: usize,
    ) {
        *answer = portable::shuntberry_write(lent(store, store_len), n, g, site, lent_mut(output, output_len));
    }

    /// # Safety
    /// Each pointer is to as many as its length says, or to one.
    #[no_mangle]
    pub unsafe extern "C" fn shuntberry_rewrite(
        answer: *mut portable::FileFields,
        input: *const u8,
        input_len: usize,
        output: *mut u8,
        output_len: usize,
    ) {
        *answer = portable::shuntberry_rewrite(lent(input, input_len), lent_mut(output, output_len));
    }

    /// # Safety
    /// Each pointer is to as many as its length says, or to one.
    #[no_mangle]
    pub unsafe extern "C" fn shuntberry_generate(
        answer: *mut u32,
        seed: u32,
        n: usize,
        fan_out: usize,
        store: *mut u64,
        store_len: usize,
    ) {
        *answer = portable::shuntberry_generate(seed, n, fan_out, lent_mut(store, store_len));
    }

    /// # Safety
    /// Each pointer is to as many as its length says, or to one.
    #[no_mangle]
    pub unsafe extern "C" fn shuntberry_replay(
        answer: *mut portable::ReplayFields,
        store: *const u64,
        store_len: usize,
        n: usize,
        g: usize,
        log: *const u8,
        log_len: usize,
    ) {
        *answer = portable::shuntberry_replay(lent(store, store_len), n, g, lent(log, log_len));
    }

    /// # Safety
    /// Each pointer is to as many as its length says, or to one.
    #[no_mangle]
    pub unsafe extern "C" fn shuntberry_open(
        answer: *mut portable::SessionFields,
        store: *const u64,
        store_len: usize,
        n: usize,
        g: usize,
    ) {
        *answer = portable::shuntberry_open(lent(store, store_len), n, g);
    }

    /// # Safety
    /// Each pointer is to as many as its length says, or to one.
    #[no_mangle]
    pub unsafe extern "C" fn shuntberry_add_step(
        answer: *mut portable::SessionFields,
        store: *mut u64,
        store_len: usize,
        n: usize,
        g: usize,
        reachable: *const portable::SetFields,
        from: usize,
        to: usize,
    ) {
        *answer = portable::shuntberry_add_step(lent_mut(store, store_len), n, g, *reachable, from, to);
    }

    /// # Safety
    /// Each pointer is to as many as its length says, or to one.
    #[no_mangle]
    pub unsafe extern "C" fn shuntberry_remove_step(
        answer: *mut portable::SessionFields,
        store: *mut u64,
        store_len: usize,
        n: usize,
        g: usize,
        reachable: *const portable::SetFields,
        from: usize,
        to: usize,
    ) {
        *answer = portable::shuntberry_remove_step(lent_mut(store, store_len), n, g, *reachable, from, to);
    }

    /// # Safety
    /// Each pointer is to as many as its length says, or to one.
    #[no_mangle]
    pub unsafe extern "C" fn shuntberry_decide_modal(
        answer: *mut portable::ModalFields,
        store: *const u64,
        store_len: usize,
        n: usize,
        g: usize,
        possible: *const u64,
        possible_len: usize,
        path: *mut u16,
        path_len: usize,
    ) {
        *answer = portable::shuntberry_decide_modal(lent(store, store_len), n, g, lent(possible, possible_len), lent_mut(path, path_len));
    }

    /// # Safety
    /// Each pointer is to as many as its length says, or to one.
    #[no_mangle]
    pub unsafe extern "C" fn shuntberry_next_open(
        answer: *mut portable::MinuteFields,
        time: usize,
        windows: *const u64,
        windows_len: usize,
        closed_days: *const u32,
        closed_days_len: usize,
    ) {
        *answer = portable::shuntberry_next_open(time, lent(windows, windows_len), lent(closed_days, closed_days_len));
    }
}
