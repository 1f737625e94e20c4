//! The functions, structs and constants of `mhlink.h`, as they are declared there.
//!
//! `tools/rust_declarations` writes this file from the header, which describes each function. The crate `mhlink` is safe.
#![no_std]
#![allow(non_camel_case_types)]

use core::ffi::c_void;

pub const MHLINK_OK: u32 = 0;
pub const MHLINK_NO_MEMORY: u32 = 1;
pub const MHLINK_HISTORY_FULL: u32 = 2;
pub const MHLINK_NO_SITE: u32 = 3;
pub const MHLINK_NO_POINT: u32 = 4;
pub const MHLINK_WRONG_TYPE: u32 = 5;
pub const MHLINK_NO_SNAPSHOT: u32 = 6;
pub const MHLINK_NO_PLAN: u32 = 7;
pub const MHLINK_PLAN_REFUSED: u32 = 8;
pub const MHLINK_OLD_PLAN: u32 = 9;
pub const MHLINK_TOTAL_TOO_LARGE: u32 = 10;
pub const MHLINK_LEDGER_FULL: u32 = 11;
pub const MHLINK_GAIN_TOO_LARGE: u32 = 12;
pub const MHLINK_NO_WORKER: u32 = 13;
pub const MHLINK_WRONG_LEVEL: u32 = 14;
pub const MHLINK_INPUT: u32 = 100;
pub const MHLINK_TOO_LONG: u32 = 102;
pub const MHLINK_NOT_JSON: u32 = 103;
pub const MHLINK_BAD_SHAPE: u32 = 104;
pub const MHLINK_BAD_INPUT_VALUE: u32 = 105;
pub const MHLINK_UNKNOWN_SHARED: u32 = 106;
pub const MHLINK_BAD_TREE: u32 = 107;
pub const MHLINK_BAD_DEFINITION: u32 = 108;
pub const MHLINK_BAD_TYPE: u32 = 112;
pub const MHLINK_UNKNOWN_SITE: u32 = 113;
pub const MHLINK_PROBLEM: u32 = 200;
pub const MHLINK_GAINS_TOO_LARGE: u32 = 202;
pub const MHLINK_COSTS_TOO_LARGE: u32 = 203;
pub const MHLINK_NEED_OUT_OF_RANGE: u32 = 204;
pub const MHLINK_NEEDS_NOT_ASCENDING: u32 = 205;
pub const MHLINK_TOO_MANY_LINKS: u32 = 206;
pub const MHLINK_TOO_MANY_POINTS: u32 = 207;
pub const MHLINK_TOO_MANY_NEEDS: u32 = 208;
pub const MHLINK_UNKNOWN: u32 = 301;
pub const MHLINK_SHORT: u32 = 302;
pub const MHLINK_BAD_VALUE: u32 = 303;
pub const MHLINK_BAD_LIMITS: u32 = 304;
pub const MHLINK_INT: u32 = 1;
pub const MHLINK_LONG: u32 = 2;
pub const MHLINK_BOOLEAN: u32 = 3;
pub const MHLINK_STRING: u32 = 4;
pub const MHLINK_THROWN: u32 = 5;
pub const MHLINK_KEEP_HITS: u32 = 0;
pub const MHLINK_HALVE_HITS: u32 = 1;
pub const MHLINK_DROP_HITS: u32 = 2;
pub const MHLINK_FORM_DEFINITION: u32 = 0;
pub const MHLINK_FORM_SCRIPT: u32 = 1;
pub const MHLINK_FORM_PROBLEM: u32 = 2;
pub const MHLINK_FORM_PROBLEM_WITH_PLAN: u32 = 3;
pub const MHLINK_POINTS: u32 = 0;
pub const MHLINK_SITES: u32 = 1;
pub const MHLINK_LINKS: u32 = 2;
pub const MHLINK_POINT_IS_VALID: u32 = 3;
pub const MHLINK_POINT_COST: u32 = 4;
pub const MHLINK_SITE_LEVEL: u32 = 5;
pub const MHLINK_SITE_KEY: u32 = 6;
pub const MHLINK_SITE_RESULT: u32 = 7;
pub const MHLINK_SITE_PARAMETERS: u32 = 8;
pub const MHLINK_SITE_PARAMETER: u32 = 9;
pub const MHLINK_SITE_LINKS: u32 = 10;
pub const MHLINK_SITE_LINK: u32 = 11;
pub const MHLINK_SITE_HELD_LINKS: u32 = 12;
pub const MHLINK_SITE_HELD_LINK: u32 = 13;
pub const MHLINK_SITE_RETARGETINGS: u32 = 14;
pub const MHLINK_LINK_SITE: u32 = 15;
pub const MHLINK_LINK_WEIGHT: u32 = 16;
pub const MHLINK_LINK_CHARGE: u32 = 17;
pub const MHLINK_LINK_NEEDS: u32 = 18;
pub const MHLINK_LINK_NEED: u32 = 19;
pub const MHLINK_LINK_IS_ELIGIBLE: u32 = 20;
pub const MHLINK_PLAN_LINKS: u32 = 21;
pub const MHLINK_PLAN_LINK: u32 = 22;
pub const MHLINK_PLAN_POINTS: u32 = 23;
pub const MHLINK_PLAN_POINT: u32 = 24;
pub const MHLINK_PLAN_IS_CURRENT: u32 = 25;
pub const MHLINK_VERSION: u32 = 1;
pub const MHLINK_MOST_SNAPSHOTS: u32 = 1024;
pub const MHLINK_MOST_PLANS: u32 = 1024;
#[repr(C)]
#[derive(Debug)]
pub struct mhlink_machine {
    pub at: *mut c_void,
}

#[repr(C)]
#[derive(Debug)]
pub struct mhlink_desk {
    pub at: *mut c_void,
}

#[repr(C)]
#[derive(Debug)]
pub struct mhlink_caller {
    pub at: *mut c_void,
}

#[repr(C)]
#[derive(Debug)]
pub struct mhlink_tree {
    pub at: *mut c_void,
}

#[repr(C)]
#[derive(Clone, Copy, Debug, PartialEq, Eq)]
pub struct mhlink_limits {
    pub history: u64,
    pub ledger: u64,
    pub total: u64,
}

#[repr(C)]
#[derive(Clone, Copy, Debug, PartialEq, Eq)]
pub struct mhlink_usage {
    pub records: u64,
    pub snapshots: u64,
    pub plans: u64,
}

#[repr(C)]
#[derive(Clone, Copy, Debug, PartialEq, Eq)]
pub struct mhlink_value {
    pub kind: u32,
    pub number: i64,
}

#[repr(C)]
#[derive(Clone, Copy, Debug, PartialEq, Eq)]
pub struct mhlink_reply {
    pub kind: u32,
    pub number: i64,
    pub steps: u64,
}

#[repr(C)]
#[derive(Clone, Copy, Debug, PartialEq, Eq)]
pub struct mhlink_problem_link {
    pub gain: u64,
    pub charge: u64,
    pub first: usize,
    pub count: usize,
    pub eligible: u32,
}
unsafe extern "C" {
    pub fn mhlink_version() -> u32;
    pub fn mhlink_fault_text(status: u32, part: u64, buffer: *mut u8, capacity: usize, length: *mut usize) -> u32;
    pub fn mhlink_explain(form: u32, text: *const u8, text_length: usize, buffer: *mut u8, capacity: usize, length: *mut usize) -> u32;
    pub fn mhlink_open(definition: *const u8, length: usize, workers: u32, limits: *const mhlink_limits, machine: *mut mhlink_machine, part: *mut u64) -> u32;
    pub fn mhlink_resume(definition: *const u8, length: usize, workers: u32, limits: *const mhlink_limits, invalid: *const u32, count: usize, totals: *const u64, links: usize, machine: *mut mhlink_machine, part: *mut u64) -> u32;
    pub fn mhlink_close(machine: mhlink_machine);
    pub fn mhlink_site(machine: *mut mhlink_machine, name: *const u8, length: usize, site: *mut u64) -> u32;
    pub fn mhlink_point(machine: *mut mhlink_machine, name: *const u8, length: usize, point: *mut u64) -> u32;
    pub fn mhlink_link(machine: *mut mhlink_machine, site: usize, key: *const mhlink_value, text: *const u8, length: usize, link: *mut u64) -> u32;
    pub fn mhlink_key(machine: *mut mhlink_machine, link: usize, key: *mut mhlink_value, buffer: *mut u8, capacity: usize, length: *mut usize) -> u32;
    pub fn mhlink_call(machine: *mut mhlink_machine, worker: u32, site: usize, values: *const mhlink_value, count: usize, texts: *const u8, length: usize, reply: *mut mhlink_reply) -> u32;
    pub fn mhlink_text(machine: *mut mhlink_machine, buffer: *mut u8, capacity: usize, length: *mut usize) -> u32;
    pub fn mhlink_flush(machine: *mut mhlink_machine, worker: u32) -> u32;
    pub fn mhlink_target(machine: *mut mhlink_machine, site: usize, tree: *const u8, length: usize, part: *mut u64) -> u32;
    pub fn mhlink_tree_read(machine: *mut mhlink_machine, json: *const u8, length: usize, tree: *mut mhlink_tree, part: *mut u64) -> u32;
    pub fn mhlink_target_tree(machine: *mut mhlink_machine, site: usize, tree: *mut mhlink_tree, part: *mut u64) -> u32;
    pub fn mhlink_tree_close(tree: mhlink_tree);
    pub fn mhlink_invalidate(machine: *mut mhlink_machine, points: *const u32, count: usize) -> u32;
    pub fn mhlink_snapshot(machine: *mut mhlink_machine, snapshot: *mut u64) -> u32;
    pub fn mhlink_plan(machine: *mut mhlink_machine, snapshot: usize, plan: *mut u64) -> u32;
    pub fn mhlink_offer(machine: *mut mhlink_machine, snapshot: usize, json: *const u8, length: usize, plan: *mut u64, part: *mut u64) -> u32;
    pub fn mhlink_install(machine: *mut mhlink_machine, plan: usize, linked: *mut u64, part: *mut u64) -> u32;
    pub fn mhlink_certificate(machine: *mut mhlink_machine, snapshot: usize, buffer: *mut u8, capacity: usize, length: *mut usize) -> u32;
    pub fn mhlink_used(machine: *mut mhlink_machine, used: *mut mhlink_usage) -> u32;
    pub fn mhlink_renew(machine: *mut mhlink_machine, again: *const u32, count: usize, hits: u32) -> u32;
    pub fn mhlink_extend(machine: *mut mhlink_machine, json: *const u8, length: usize, part: *mut u64) -> u32;
    pub fn mhlink_hits(machine: *mut mhlink_machine, worker: u32, link: usize, hits: *mut u64) -> u32;
    pub fn mhlink_total(machine: *mut mhlink_machine, link: usize, total: *mut u64) -> u32;
    pub fn mhlink_linked(machine: *mut mhlink_machine, site: usize, links: *mut u64) -> u32;
    pub fn mhlink_detail(machine: *mut mhlink_machine, detail: u32, number: usize, place: usize, told: *mut u64) -> u32;
    pub fn mhlink_tree_text(machine: *mut mhlink_machine, site: usize, buffer: *mut u8, capacity: usize, length: *mut usize) -> u32;
    pub fn mhlink_report(machine: *mut mhlink_machine, buffer: *mut u8, capacity: usize, length: *mut usize) -> u32;
    pub fn mhlink_desk_open(definition: *const u8, length: usize, limits: *const mhlink_limits, callers: *mut mhlink_caller, count: usize, desk: *mut mhlink_desk, part: *mut u64) -> u32;
    pub fn mhlink_desk_close(desk: mhlink_desk);
    pub fn mhlink_caller_close(caller: mhlink_caller);
    pub fn mhlink_caller_call(caller: *mut mhlink_caller, site: usize, values: *const mhlink_value, count: usize, texts: *const u8, length: usize, reply: *mut mhlink_reply) -> u32;
    pub fn mhlink_caller_text(caller: *mut mhlink_caller, buffer: *mut u8, capacity: usize, length: *mut usize) -> u32;
    pub fn mhlink_caller_hits(caller: *mut mhlink_caller, link: usize, hits: *mut u64) -> u32;
    pub fn mhlink_desk_show(desk: *mut mhlink_desk) -> u32;
    pub fn mhlink_caller_look(caller: *mut mhlink_caller, desk: *mut mhlink_desk) -> u32;
    pub fn mhlink_desk_flush(desk: *mut mhlink_desk, caller: *mut mhlink_caller) -> u32;
    pub fn mhlink_desk_target(desk: *mut mhlink_desk, site: usize, tree: *const u8, length: usize, part: *mut u64) -> u32;
    pub fn mhlink_desk_tree_read(desk: *mut mhlink_desk, json: *const u8, length: usize, tree: *mut mhlink_tree, part: *mut u64) -> u32;
    pub fn mhlink_desk_target_tree(desk: *mut mhlink_desk, site: usize, tree: *mut mhlink_tree, part: *mut u64) -> u32;
    pub fn mhlink_desk_invalidate(desk: *mut mhlink_desk, points: *const u32, count: usize) -> u32;
    pub fn mhlink_desk_snapshot(desk: *mut mhlink_desk, snapshot: *mut u64) -> u32;
    pub fn mhlink_desk_plan(desk: *mut mhlink_desk, snapshot: usize, plan: *mut u64) -> u32;
    pub fn mhlink_desk_offer(desk: *mut mhlink_desk, snapshot: usize, json: *const u8, length: usize, plan: *mut u64, part: *mut u64) -> u32;
    pub fn mhlink_desk_install(desk: *mut mhlink_desk, plan: usize, linked: *mut u64, part: *mut u64) -> u32;
    pub fn mhlink_desk_site(desk: *mut mhlink_desk, name: *const u8, length: usize, site: *mut u64) -> u32;
    pub fn mhlink_desk_point(desk: *mut mhlink_desk, name: *const u8, length: usize, point: *mut u64) -> u32;
    pub fn mhlink_desk_link(desk: *mut mhlink_desk, site: usize, key: *const mhlink_value, text: *const u8, length: usize, link: *mut u64) -> u32;
    pub fn mhlink_desk_key(desk: *mut mhlink_desk, link: usize, key: *mut mhlink_value, buffer: *mut u8, capacity: usize, length: *mut usize) -> u32;
    pub fn mhlink_desk_total(desk: *mut mhlink_desk, link: usize, total: *mut u64) -> u32;
    pub fn mhlink_desk_linked(desk: *mut mhlink_desk, site: usize, links: *mut u64) -> u32;
    pub fn mhlink_desk_detail(desk: *mut mhlink_desk, detail: u32, number: usize, place: usize, told: *mut u64) -> u32;
    pub fn mhlink_desk_tree_text(desk: *mut mhlink_desk, site: usize, buffer: *mut u8, capacity: usize, length: *mut usize) -> u32;
    pub fn mhlink_desk_used(desk: *mut mhlink_desk, used: *mut mhlink_usage) -> u32;
    pub fn mhlink_desk_renew(desk: *mut mhlink_desk, callers: *mut mhlink_caller, callers_count: usize, again: *const u32, count: usize, hits: u32) -> u32;
    pub fn mhlink_plan_problem(costs: *const u64, points: usize, links: *const mhlink_problem_link, count: usize, needs: *const u32, all_needs: usize, chosen: *mut u32, capacity: usize, length: *mut usize, value: *mut i64) -> u32;
    pub fn mhlink_plan_problem_flow(costs: *const u64, points: usize, links: *const mhlink_problem_link, count: usize, needs: *const u32, all_needs: usize, chosen: *mut u32, capacity: usize, length: *mut usize, value: *mut i64, needed: *mut u32, needed_capacity: usize, needed_length: *mut usize, paid: *mut u64, paid_capacity: usize, given: *mut u64, given_capacity: usize, gets: *mut u64, gets_capacity: usize) -> u32;
}
