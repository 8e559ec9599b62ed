//! The functions of include/srp.h under their C names, so that what calls the library can be linked with this build too.
//!
//! # Safety
//! As include/srp.h says of slices: each pointer is valid for its length, and a slice that is written overlaps no other.
#![allow(clippy::missing_safety_doc, clippy::too_many_arguments)]

use crate::console;
use crate::label::Label;
use std::slice::{from_raw_parts as slice, from_raw_parts_mut as slice_mut};

/// A call that takes memory and some numbers.
macro_rules! calls {
    ($($name:ident = $function:ident($($argument:ident: $kind:ty),*);)*) => {$(
        #[no_mangle]
        pub unsafe extern "C" fn $name(memory: *mut u8, length: usize, $($argument: $kind),*) -> u64 {
            console::$function(unsafe { slice_mut(memory, length) }, $($argument),*)
        }
    )*};
}

/// One that only reads the memory.
macro_rules! questions {
    ($($name:ident = $function:ident($($argument:ident),*);)*) => {$(
        #[no_mangle]
        pub unsafe extern "C" fn $name(memory: *const u8, length: usize, $($argument: usize),*) -> u64 {
            console::$function(unsafe { slice(memory, length) }, $($argument),*)
        }
    )*};
}

/// One that writes what it shows to an output slice.
macro_rules! shows {
    ($($name:ident = $function:ident($($argument:ident),*);)*) => {$(
        #[no_mangle]
        pub unsafe extern "C" fn $name(memory: *const u8, length: usize, $($argument: usize,)* out: *mut u8, out_length: usize) -> u64 {
            console::$function(unsafe { slice(memory, length) }, $($argument,)* unsafe { slice_mut(out, out_length) })
        }
    )*};
}

calls! {
    srp_open = open(n: usize, start: u64, limit: usize);
    srp_up = up(a: usize, b: usize);
    srp_down = down(a: usize, b: usize);
    srp_solicit = solicit(a: usize, t: usize);
    srp_give_up = give_up(a: usize);
    srp_expire = expire(a: usize, t: usize);
    srp_deliver = deliver(k: usize);
    srp_lose = lose(k: usize);
    srp_duplicate = duplicate(k: usize);
    srp_drain = drain();
}

questions! {
    srp_trace = trace(a, t);
    srp_size = size();
    srp_air = air();
    srp_limit = limit();
    srp_link = link(a, b);
    srp_script_start = script_start();
    srp_find = find(station);
}

shows! {
    srp_label = label(i, t);
    srp_row = row(i, t);
    srp_record = record(i, source);
    srp_station = station(i);
    srp_packet = packet(k);
    srp_preview = preview(k);
    srp_rehearse = rehearse(limit);
}

#[no_mangle]
pub unsafe extern "C" fn srp_run(
    memory: *mut u8,
    length: usize,
    kinds: *const u8,
    kinds_length: usize,
    operands: *const u8,
    operands_length: usize,
    lines: *mut u64,
    lines_length: usize,
) -> u64 {
    unsafe {
        console::run(
            slice_mut(memory, length),
            slice(kinds, kinds_length),
            slice(operands, operands_length),
            slice_mut(lines, lines_length),
        )
    }
}

#[no_mangle]
pub unsafe extern "C" fn srp_read_script(
    script: *const u8,
    script_length: usize,
    kinds: *mut u8,
    kinds_length: usize,
    operands: *mut u8,
    operands_length: usize,
) -> u64 {
    unsafe { console::read_script(slice(script, script_length), slice_mut(kinds, kinds_length), slice_mut(operands, operands_length)) }
}

#[no_mangle]
pub unsafe extern "C" fn srp_write_script(
    n: usize,
    start: u64,
    kinds: *const u8,
    kinds_length: usize,
    operands: *const u8,
    operands_length: usize,
    out: *mut u8,
    out_length: usize,
) -> u64 {
    unsafe { console::write_script(n, start, slice(kinds, kinds_length), slice(operands, operands_length), slice_mut(out, out_length)) }
}

#[no_mangle]
pub extern "C" fn srp_new_label(
    own_s: u64,
    own_m: u32,
    own_d: u32,
    cached_s: u64,
    cached_m: u32,
    cached_d: u32,
    advertised_s: u64,
    advertised_m: u32,
    advertised_d: u32,
) -> u64 {
    console::new_label(
        Label::new(own_s, own_m, own_d),
        Label::new(cached_s, cached_m, cached_d),
        Label::new(advertised_s, advertised_m, advertised_d),
    )
}
