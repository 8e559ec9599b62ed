//! The proved library through its C entry points (include/srp.h), on slices. The functions have the names and arguments of the Rust
//! build's `reference::console`.
//!
//! Every pointer handed on is that of a slice with its length, and one that is borrowed for writing overlaps no other.

use reference::label::Label;

/// Functions of one slice, of numbers, and of an output slice if they have one.
macro_rules! entry_points {
    ($slice:ty, $pointer:ident, $raw:ty: $($symbol:ident = $name:ident($($argument:ident: $kind:ty),* $(; $out:ident)?);)*) => {
        $(pub fn $name(memory: $slice $(, $argument: $kind)* $(, $out: &mut [u8])?) -> u64 {
            extern "C" {
                fn $symbol(memory: $raw, length: usize $(, $argument: $kind)* $(, $out: *mut u8, out_length: usize)?) -> u64;
            }
            unsafe { $symbol(memory.$pointer(), memory.len() $(, $argument)* $(, $out.as_mut_ptr(), $out.len())?) }
        })*
    };
}

entry_points! { &mut [u8], as_mut_ptr, *mut u8:
    srp_open = open(n: usize, start: u64, limit: usize);
    srp_up = up(a: usize, b: usize);
    srp_down = down(a: usize, b: usize);
    srp_solicit = solicit(a: usize, t: usize);
    srp_give_up = give_up(a: usize);
    srp_expire = expire(a: usize, t: usize);
    srp_deliver = deliver(k: usize);
    srp_lose = lose(k: usize);
    srp_duplicate = duplicate(k: usize);
    srp_drain = drain();
}

entry_points! { &[u8], as_ptr, *const u8:
    srp_trace = trace(a: usize, t: usize);
    srp_size = size();
    srp_air = air();
    srp_limit = limit();
    srp_link = link(a: usize, b: usize);
    srp_label = label(i: usize, t: usize; out);
    srp_row = row(i: usize, t: usize; out);
    srp_record = record(i: usize, source: usize; out);
    srp_station = station(i: usize; out);
    srp_packet = packet(k: usize; out);
    srp_preview = preview(k: usize; out);
    srp_find = find(station: usize);
    srp_script_start = script_start();
    srp_rehearse = rehearse(limit: usize; out);
}

pub fn run(memory: &mut [u8], kinds: &[u8], operands: &[u8], lines: &mut [u64]) -> u64 {
    extern "C" {
        fn srp_run(
            memory: *mut u8,
            length: usize,
            kinds: *const u8,
            kinds_length: usize,
            operands: *const u8,
            operands_length: usize,
            lines: *mut u64,
            lines_length: usize,
        ) -> u64;
    }
    unsafe {
        srp_run(
            memory.as_mut_ptr(),
            memory.len(),
            kinds.as_ptr(),
            kinds.len(),
            operands.as_ptr(),
            operands.len(),
            lines.as_mut_ptr(),
            lines.len(),
        )
    }
}

pub fn read_script(script: &[u8], kinds: &mut [u8], operands: &mut [u8]) -> u64 {
    extern "C" {
        fn srp_read_script(
            script: *const u8,
            script_length: usize,
            kinds: *mut u8,
            kinds_length: usize,
            operands: *mut u8,
            operands_length: usize,
        ) -> u64;
    }
    unsafe { srp_read_script(script.as_ptr(), script.len(), kinds.as_mut_ptr(), kinds.len(), operands.as_mut_ptr(), operands.len()) }
}

pub fn write_script(n: usize, start: u64, kinds: &[u8], operands: &[u8], out: &mut [u8]) -> u64 {
    extern "C" {
        fn srp_write_script(
            n: usize,
            start: u64,
            kinds: *const u8,
            kinds_length: usize,
            operands: *const u8,
            operands_length: usize,
            out: *mut u8,
            out_length: usize,
        ) -> u64;
    }
    unsafe { srp_write_script(n, start, kinds.as_ptr(), kinds.len(), operands.as_ptr(), operands.len(), out.as_mut_ptr(), out.len()) }
}

pub fn new_label(own: Label, cached: Label, advertised: Label) -> u64 {
    extern "C" {
        fn srp_new_label(
            own_s: u64,
            own_m: u32,
            own_d: u32,
            cached_s: u64,
            cached_m: u32,
            cached_d: u32,
            advertised_s: u64,
            advertised_m: u32,
            advertised_d: u32,
        ) -> u64;
    }
    unsafe { srp_new_label(own.s, own.m, own.d, cached.s, cached.m, cached.d, advertised.s, advertised.m, advertised.d) }
}
