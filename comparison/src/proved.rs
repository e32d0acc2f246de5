//! The archive's functions. Each answers one number: `code` of crates/base_answer_codes/specs/Code.antt.

mod raw {
    extern "C" {
        pub fn puxerdau_threshold(n: usize) -> u64;
        pub fn puxerdau_read(
            text: *const u8,
            text_length: usize,
            starts: *mut u32,
            starts_length: usize,
            neighbours: *mut u16,
            neighbours_length: usize,
        ) -> u64;
        pub fn puxerdau_write(
            n: usize,
            starts: *const u32,
            starts_length: usize,
            neighbours: *const u16,
            neighbours_length: usize,
            buffer: *mut u8,
            buffer_length: usize,
        ) -> u64;
        pub fn puxerdau_import(
            text: *const u8,
            text_length: usize,
            starts: *mut u32,
            starts_length: usize,
            neighbours: *mut u16,
            neighbours_length: usize,
        ) -> u64;
        pub fn puxerdau_export(
            n: usize,
            starts: *const u32,
            starts_length: usize,
            neighbours: *const u16,
            neighbours_length: usize,
            buffer: *mut u8,
            buffer_length: usize,
        ) -> u64;
        pub fn puxerdau_accept(
            n: usize,
            starts: *const u32,
            starts_length: usize,
            neighbours: *const u16,
            neighbours_length: usize,
        ) -> u64;
        pub fn puxerdau_build(
            n: usize,
            threshold: usize,
            starts: *const u32,
            starts_length: usize,
            neighbours: *const u16,
            neighbours_length: usize,
            full: *mut u16,
            full_length: usize,
            low: *mut u16,
            low_length: usize,
            report: *mut u16,
            report_length: usize,
            hubs: *mut u16,
            hubs_length: usize,
        ) -> u64;
        pub fn puxerdau_ask(
            n: usize,
            full: *const u16,
            full_length: usize,
            low: *const u16,
            low_length: usize,
            report: *const u16,
            report_length: usize,
            a: usize,
            b: usize,
        ) -> u64;
        pub fn puxerdau_walk(
            n: usize,
            threshold: usize,
            starts: *const u32,
            starts_length: usize,
            neighbours: *const u16,
            neighbours_length: usize,
            full: *const u16,
            full_length: usize,
            low: *const u16,
            low_length: usize,
            report: *const u16,
            report_length: usize,
            a: usize,
            b: usize,
            walk: *mut u16,
            walk_length: usize,
        ) -> u64;
        pub fn puxerdau_test(
            n: usize,
            threshold: usize,
            starts: *const u32,
            starts_length: usize,
            neighbours: *const u16,
            neighbours_length: usize,
        ) -> u64;
        pub fn puxerdau_list(
            text: *const u8,
            text_length: usize,
            buffer: *mut u8,
            buffer_length: usize,
        ) -> u64;
    }
}

// Each call hands on whole slices, so that what stands behind every pointer is as long as said, and the slices that are written are
// borrowed alone. No call has a `requires`.

pub fn threshold(n: usize) -> u64 {
    unsafe { raw::puxerdau_threshold(n) }
}

pub fn read(text: &[u8], starts: &mut [u32], neighbours: &mut [u16]) -> u64 {
    unsafe {
        raw::puxerdau_read(
            text.as_ptr(),
            text.len(),
            starts.as_mut_ptr(),
            starts.len(),
            neighbours.as_mut_ptr(),
            neighbours.len(),
        )
    }
}

pub fn write(n: usize, starts: &[u32], neighbours: &[u16], buffer: &mut [u8]) -> u64 {
    unsafe {
        raw::puxerdau_write(
            n,
            starts.as_ptr(),
            starts.len(),
            neighbours.as_ptr(),
            neighbours.len(),
            buffer.as_mut_ptr(),
            buffer.len(),
        )
    }
}

pub fn import(text: &[u8], starts: &mut [u32], neighbours: &mut [u16]) -> u64 {
    unsafe {
        raw::puxerdau_import(
            text.as_ptr(),
            text.len(),
            starts.as_mut_ptr(),
            starts.len(),
            neighbours.as_mut_ptr(),
            neighbours.len(),
        )
    }
}

pub fn export(n: usize, starts: &[u32], neighbours: &[u16], buffer: &mut [u8]) -> u64 {
    unsafe {
        raw::puxerdau_export(
            n,
            starts.as_ptr(),
            starts.len(),
            neighbours.as_ptr(),
            neighbours.len(),
            buffer.as_mut_ptr(),
            buffer.len(),
        )
    }
}

pub fn accept(n: usize, starts: &[u32], neighbours: &[u16]) -> u64 {
    unsafe {
        raw::puxerdau_accept(
            n,
            starts.as_ptr(),
            starts.len(),
            neighbours.as_ptr(),
            neighbours.len(),
        )
    }
}

#[allow(clippy::too_many_arguments)] // the lists are lent one by one
pub fn build(
    n: usize,
    threshold: usize,
    starts: &[u32],
    neighbours: &[u16],
    full: &mut [u16],
    low: &mut [u16],
    report: &mut [u16],
    hubs: &mut [u16],
) -> u64 {
    unsafe {
        raw::puxerdau_build(
            n,
            threshold,
            starts.as_ptr(),
            starts.len(),
            neighbours.as_ptr(),
            neighbours.len(),
            full.as_mut_ptr(),
            full.len(),
            low.as_mut_ptr(),
            low.len(),
            report.as_mut_ptr(),
            report.len(),
            hubs.as_mut_ptr(),
            hubs.len(),
        )
    }
}

pub fn ask(n: usize, full: &[u16], low: &[u16], report: &[u16], a: usize, b: usize) -> u64 {
    unsafe {
        raw::puxerdau_ask(
            n,
            full.as_ptr(),
            full.len(),
            low.as_ptr(),
            low.len(),
            report.as_ptr(),
            report.len(),
            a,
            b,
        )
    }
}

#[allow(clippy::too_many_arguments)] // the lists are lent one by one
pub fn walk(
    n: usize,
    threshold: usize,
    starts: &[u32],
    neighbours: &[u16],
    full: &[u16],
    low: &[u16],
    report: &[u16],
    a: usize,
    b: usize,
    walk: &mut [u16],
) -> u64 {
    unsafe {
        raw::puxerdau_walk(
            n,
            threshold,
            starts.as_ptr(),
            starts.len(),
            neighbours.as_ptr(),
            neighbours.len(),
            full.as_ptr(),
            full.len(),
            low.as_ptr(),
            low.len(),
            report.as_ptr(),
            report.len(),
            a,
            b,
            walk.as_mut_ptr(),
            walk.len(),
        )
    }
}

pub fn test(n: usize, threshold: usize, starts: &[u32], neighbours: &[u16]) -> u64 {
    unsafe {
        raw::puxerdau_test(
            n,
            threshold,
            starts.as_ptr(),
            starts.len(),
            neighbours.as_ptr(),
            neighbours.len(),
        )
    }
}

pub fn list(text: &[u8], buffer: &mut [u8]) -> u64 {
    unsafe { raw::puxerdau_list(text.as_ptr(), text.len(), buffer.as_mut_ptr(), buffer.len()) }
}
