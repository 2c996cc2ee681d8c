//! The C face, as include/quandrilof.h declares it.

use crate::Row;

extern "C" {
    pub fn qd_new(table: *mut u32, words: usize) -> u32;
    pub fn qd_load(table: *mut u32, words: usize, image: *const u8, bytes: usize) -> u32;
    pub fn qd_save(table: *const u32, words: usize, out: *mut u8, bytes: usize) -> u64;
    pub fn qd_build_index(table: *const u32, words: usize, index: *mut u8, bytes: usize) -> u32;
    pub fn qd_is_index(table: *const u32, words: usize, index: *const u8, bytes: usize) -> u32;
    pub fn qd_contains(table: *const u32, words: usize, x: u32, y: u32) -> u32;
    pub fn qd_decide(
        table: *const u32,
        words: usize,
        process: u32,
        operation: u32,
        a: u32,
        b: u32,
        c: u32,
    ) -> u32;
    pub fn qd_decide_indexed(
        table: *const u32,
        words: usize,
        index: *const u8,
        bytes: usize,
        process: u32,
        operation: u32,
        a: u32,
        b: u32,
        c: u32,
    ) -> u32;
    pub fn qd_explain(
        table: *const u32,
        words: usize,
        process: u32,
        operation: u32,
        a: u32,
        b: u32,
        c: u32,
        rows: *mut Row,
        count: usize,
    ) -> u64;
    pub fn qd_create_class(table: *mut u32, words: usize, index: *mut u8, bytes: usize, id: u32) -> u32;
    pub fn qd_create_element(
        table: *mut u32,
        words: usize,
        index: *mut u8,
        bytes: usize,
        id: u32,
        kind: u32,
        container: u32,
    ) -> u32;
    pub fn qd_assign(
        table: *mut u32,
        words: usize,
        index: *mut u8,
        bytes: usize,
        child: u32,
        container: u32,
    ) -> u32;
    pub fn qd_deassign(
        table: *mut u32,
        words: usize,
        index: *mut u8,
        bytes: usize,
        child: u32,
        container: u32,
    ) -> u32;
    pub fn qd_delete_element(table: *mut u32, words: usize, index: *mut u8, bytes: usize, id: u32) -> u32;
    pub fn qd_create_association(
        table: *mut u32,
        words: usize,
        index: *mut u8,
        bytes: usize,
        attribute: u32,
        rights: u32,
        target: u32,
    ) -> u32;
    pub fn qd_delete_association(
        table: *mut u32,
        words: usize,
        index: *mut u8,
        bytes: usize,
        attribute: u32,
        rights: u32,
        target: u32,
    ) -> u32;
    pub fn qd_create_prohibition(
        table: *mut u32,
        words: usize,
        index: *mut u8,
        bytes: usize,
        sort: u32,
        subject: u32,
        form: u32,
        rights: u32,
        inclusions: *const u32,
        inclusion_count: usize,
        exclusions: *const u32,
        exclusion_count: usize,
    ) -> u32;
    pub fn qd_delete_prohibition(
        table: *mut u32,
        words: usize,
        index: *mut u8,
        bytes: usize,
        sort: u32,
        subject: u32,
        form: u32,
        rights: u32,
        inclusions: *const u32,
        inclusion_count: usize,
        exclusions: *const u32,
        exclusion_count: usize,
    ) -> u32;
    pub fn qd_start_process(
        table: *mut u32,
        words: usize,
        index: *mut u8,
        bytes: usize,
        process: u32,
        user: u32,
    ) -> u32;
    pub fn qd_end_process(table: *mut u32, words: usize, index: *mut u8, bytes: usize, process: u32) -> u32;
}
