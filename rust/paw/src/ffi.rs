//! The exported functions as the library declares them. Nothing checks these declarations
//! against the Rattle source, so all of them stand in this one file.
#![allow(unsafe_code)]

use crate::cpu::Machine;

unsafe extern "C" {
    fn paw_version() -> u32;
    fn paw_manual_date(i: usize) -> u8;
    fn paw_decode(h: u16) -> u32;
    fn paw_encode(word: u32) -> u32;
    fn paw_step(machine: *mut Machine, memory: *mut u8, len: usize) -> u32;
    fn paw_run(machine: *mut Machine, memory: *mut u8, len: usize, budget: u32) -> u64;
    fn paw_check(file: *const u8, len: usize) -> u64;
    fn paw_verify(file: *const u8, len: usize) -> u64;
    fn paw_load(file: *const u8, len: usize, memory: *mut u8, memory_len: usize) -> u64;
    fn paw_pack(code: *const u16, len: usize, w: u16, l: u16, out: *mut u8, out_len: usize) -> u32;
    fn paw_block(file: *const u8, len: usize, n: usize) -> u64;
    fn paw_add_to_sum(sum: u16, halfword: u16) -> u16;
    fn paw_assemble(text: *const u8, text_len: usize, code: *mut u16, code_len: usize) -> u64;
    fn paw_list(code: *const u16, code_len: usize, text: *mut u8, text_len: usize) -> u64;
}

pub fn version() -> u32 {
    // SAFETY: takes nothing and answers a number.
    unsafe { paw_version() }
}

pub fn manual_date_byte(i: usize) -> u8 {
    // SAFETY: takes a number and answers a number, for every number.
    unsafe { paw_manual_date(i) }
}

pub fn decode(h: u16) -> u32 {
    // SAFETY: takes a number and answers a number, for every number.
    unsafe { paw_decode(h) }
}

pub fn encode(word: u32) -> u32 {
    // SAFETY: takes a number and answers a number, for every number.
    unsafe { paw_encode(word) }
}

pub fn step(machine: &mut Machine, memory: &mut [u8]) -> u32 {
    // SAFETY: both are borrowed for the call alone, apart from each other, and the length is the
    // slice's own; `Machine` has the library's layout, which `cpu` asserts. Its last byte is
    // padding: the library may write it, and makes nothing of what it holds.
    unsafe { paw_step(machine, memory.as_mut_ptr(), memory.len()) }
}

pub fn run(machine: &mut Machine, memory: &mut [u8], budget: u32) -> u64 {
    // SAFETY: as for `step`; the budget is a plain number.
    unsafe { paw_run(machine, memory.as_mut_ptr(), memory.len(), budget) }
}

pub fn check(file: &[u8]) -> u64 {
    // SAFETY: the file is borrowed for the call and only read, and the length is its own.
    unsafe { paw_check(file.as_ptr(), file.len()) }
}

pub fn verify(file: &[u8]) -> u64 {
    // SAFETY: the file is borrowed for the call and only read, and the length is its own.
    unsafe { paw_verify(file.as_ptr(), file.len()) }
}

pub fn load(file: &[u8], memory: &mut [u8]) -> u64 {
    // SAFETY: both are borrowed for the call, the file only read, the lengths are the slices'
    // own, and a slice that can be written overlaps no other.
    unsafe { paw_load(file.as_ptr(), file.len(), memory.as_mut_ptr(), memory.len()) }
}

pub fn pack(code: &[u16], w: u16, l: u16, out: &mut [u8]) -> u32 {
    // SAFETY: as for `load`; the code's length counts halfwords on both sides.
    unsafe { paw_pack(code.as_ptr(), code.len(), w, l, out.as_mut_ptr(), out.len()) }
}

pub fn block(file: &[u8], n: usize) -> u64 {
    // SAFETY: the file is borrowed for the call and only read, and the length is its own.
    unsafe { paw_block(file.as_ptr(), file.len(), n) }
}

pub fn add_to_sum(sum: u16, halfword: u16) -> u16 {
    // SAFETY: takes two numbers and answers a number, for all numbers.
    unsafe { paw_add_to_sum(sum, halfword) }
}

pub fn assemble(text: &[u8], code: &mut [u16]) -> u64 {
    // SAFETY: as for `load`; the code's length counts halfwords on both sides.
    unsafe { paw_assemble(text.as_ptr(), text.len(), code.as_mut_ptr(), code.len()) }
}

pub fn list(code: &[u16], text: &mut [u8]) -> u64 {
    // SAFETY: as for `load`; the code's length counts halfwords on both sides.
    unsafe { paw_list(code.as_ptr(), code.len(), text.as_mut_ptr(), text.len()) }
}
