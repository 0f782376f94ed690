//! The calls of `bindings/c/gtd.h`, which says what each means.
#![allow(non_camel_case_types)]

use std::ffi::c_void;

pub const NO: u32 = 0;
pub const YES: u32 = 1;
pub const RANGE: u32 = 2;
pub const MEMORY: u32 = 4;
pub const YEAR: u32 = 5;
pub const SHORT: u32 = 6;

#[repr(C)]
pub struct gtd_handle {
    pub full: bool,
    pub at: *mut c_void,
}

#[repr(C)]
#[derive(Clone, Copy, Default)]
pub struct gtd_fault {
    pub kind: u32,
    pub place: usize,
}

#[repr(C)]
#[derive(Clone, Copy, Default)]
pub struct gtd_hours_fault {
    pub kind: u32,
    pub place: usize,
}

#[repr(C)]
#[derive(Clone, Copy, Default)]
pub struct gtd_apart {
    pub second: i64,
    pub domain: u32,
}

#[repr(C)]
#[derive(Clone, Copy, Default)]
pub struct gtd_record_fault {
    pub kind: u32,
    pub row: u32,
    pub text: gtd_fault,
}

extern "C" {
    pub fn gtd_domain_open(domain: *mut gtd_handle, text: *const u8, length: usize, fault: *mut gtd_fault) -> u32;
    pub fn gtd_domain_from_hours(domain: *mut gtd_handle, text: *const u8, length: usize, fault: *mut gtd_hours_fault) -> u32;
    pub fn gtd_domain_holds(domain: *mut gtd_handle, second: i64) -> u32;
    pub fn gtd_domain_next(domain: *mut gtd_handle, second: i64, until_day: i64, change: *mut i64) -> u32;
    pub fn gtd_domain_ever(domain: *mut gtd_handle, second: i64, change: *mut i64) -> u32;
    pub fn gtd_domain_spans(domain: *mut gtd_handle, from_day: i64, until_day: i64, spans: *mut gtd_handle) -> u32;
    pub fn gtd_domain_canon(domain: *mut gtd_handle, text: *mut gtd_handle) -> u32;
    pub fn gtd_domain_words(domain: *mut gtd_handle, text: *mut gtd_handle) -> u32;
    pub fn gtd_domain_picture(domain: *mut gtd_handle, year: u32, text: *mut gtd_handle) -> u32;
    pub fn gtd_domain_holds_many(
        domain: *mut gtd_handle,
        seconds: *const i64,
        count: usize,
        answers: *mut u8,
        room: usize,
        done: *mut usize,
    ) -> u32;
    pub fn gtd_same(first: *mut gtd_handle, second: *mut gtd_handle, from: i64, apart: *mut gtd_apart) -> u32;
    pub fn gtd_records_open(records: *mut gtd_handle, bytes: *const u8, length: usize, fault: *mut gtd_record_fault) -> u32;
    pub fn gtd_records_count(records: *mut gtd_handle, elements: *mut usize) -> u32;
    pub fn gtd_records_element(records: *mut gtd_handle, place: usize, element: *mut u64) -> u32;
    pub fn gtd_records_closed_at(records: *mut gtd_handle, element: u64, negative: bool, vehicle: u8, second: i64) -> u32;
    pub fn gtd_records_next(
        records: *mut gtd_handle,
        element: u64,
        negative: bool,
        vehicle: u8,
        second: i64,
        until_day: i64,
        change: *mut i64,
    ) -> u32;
    pub fn gtd_records_closers(
        records: *mut gtd_handle,
        element: u64,
        negative: bool,
        vehicle: u8,
        second: i64,
        rows: *mut u32,
        room: usize,
        count: *mut usize,
    ) -> u32;
    pub fn gtd_records_spans(
        records: *mut gtd_handle,
        element: u64,
        negative: bool,
        vehicle: u8,
        from_day: i64,
        until_day: i64,
        spans: *mut gtd_handle,
    ) -> u32;
    pub fn gtd_records_schedule(
        records: *mut gtd_handle,
        from_day: i64,
        until_day: i64,
        vehicle: u8,
        text: *mut gtd_handle,
    ) -> u32;
    pub fn gtd_records_closed_many(
        records: *mut gtd_handle,
        questions: *const crate::Question,
        count: usize,
        answers: *mut u8,
        room: usize,
        done: *mut usize,
    ) -> u32;
    pub fn gtd_share(records: *mut gtd_handle, other: *mut gtd_handle) -> u32;
    pub fn gtd_spans_next(spans: *mut gtd_handle, from: *mut i64, until: *mut i64) -> u32;
    pub fn gtd_text_bytes(text: *mut gtd_handle, out: *mut u8, room: usize, length: *mut usize) -> u32;
    pub fn gtd_close(handle: *mut gtd_handle);
    pub fn gtd_second(year: i64, month: u32, day: u32, hour: u32, minute: u32, second: u32, out: *mut i64) -> u32;
    pub fn gtd_stamp(second: i64, out: *mut u8, room: usize) -> u32;
    pub fn gtd_fault_name(kind: u32, out: *mut u8, room: usize, length: *mut usize) -> u32;
    pub fn gtd_record_fault_name(kind: u32, out: *mut u8, room: usize, length: *mut usize) -> u32;
    pub fn gtd_hours_fault_name(kind: u32, out: *mut u8, room: usize, length: *mut usize) -> u32;
    pub fn gtd_version(out: *mut u8, room: usize, length: *mut usize) -> u32;
}
