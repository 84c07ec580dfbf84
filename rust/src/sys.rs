//! The C functions as they are, after `c/loqzemar.h`. Nothing here is safe to call but with what that header asks for.
#![allow(non_camel_case_types, missing_docs)]

use std::ffi::c_void;
use std::ptr;

/// A pod, or none.
#[repr(C)]
pub struct loq_pod {
    at: *mut c_void,
    made: bool,
}

impl loq_pod {
    /// No pod.
    pub const fn empty() -> loq_pod {
        loq_pod { at: ptr::null_mut(), made: false }
    }
}

pub const DONE: u32 = 0;
pub const NO_MEMORY: u32 = 1;
pub const NOBODY: u32 = 3;
pub const NOT_ARMED: u32 = 6;
pub const BAD_NUMBER: u32 = 8;
pub const TOO_SMALL: u32 = 9;

pub const NULL: u64 = u64::MAX;
pub const TEXT_MAX: usize = 240;

#[repr(C)]
#[derive(Clone, Copy, Default)]
pub struct loq_call_t {
    pub kind: u32,
    pub number: u32,
    pub arg: u32,
    pub prio: u32,
    pub exit: u32,
    pub target: u64,
    pub other: u64,
    pub room: u8,
    pub mode: u8,
    pub func: u8,
    pub any: bool,
    pub suspended: bool,
    pub nolastrites: bool,
    pub server: bool,
}

#[repr(C)]
#[derive(Clone, Copy, Default)]
pub struct loq_effect_t {
    pub kind: u32,
    pub answer: u32,
    pub tid: u64,
    pub value: i64,
    pub id: u64,
    pub reg: u64,
    pub small: u32,
    pub arg: u32,
    pub depth: u32,
    pub mark: u32,
    pub pattern: u32,
    pub text_len: usize,
    pub ids_len: usize,
    pub call: loq_call_t,
}

/// How a session ended, or what a search came to.
#[repr(C)]
#[derive(Clone, Copy, Default)]
pub struct loq_session_t {
    pub status: u32,
    pub reason: u32,
    pub line: u64,
    pub calls: u64,
    pub taken: u64,
}

extern "C" {
    pub fn loq_pod_new(pod: *mut loq_pod, maxpri: u32, births: u64, procs: u32) -> u32;
    pub fn loq_pod_free(pod: *mut loq_pod);
    pub fn loq_current(pod: *mut loq_pod, tid: *mut u64) -> u32;
    pub fn loq_ending(pod: *mut loq_pod, why: *mut u32, status: *mut u32) -> u32;
    pub fn loq_armed(pod: *mut loq_pod, event: u8, armed: *mut bool) -> u32;
    pub fn loq_call(pod: *mut loq_pod, call: *const loq_call_t, text: *const u8, text_len: usize) -> u32;
    pub fn loq_deliver(pod: *mut loq_pod, event: u8, client: u8, seq: u32, text: *const u8, text_len: usize) -> u32;
    pub fn loq_effects(pod: *mut loq_pod, count: *mut usize) -> u32;
    pub fn loq_effect(
        pod: *mut loq_pod,
        at: usize,
        effect: *mut loq_effect_t,
        text: *mut u8,
        text_room: usize,
        ids: *mut u64,
        ids_room: usize,
    ) -> u32;
    pub fn loq_name(pod: *mut loq_pod, name: *const u8, name_len: usize) -> u32;
    pub fn loq_lines(pod: *mut loq_pod, out: *mut u8, room: usize, len: *mut usize) -> u32;
    pub fn loq_state(pod: *mut loq_pod, out: *mut u8, room: usize, len: *mut usize) -> u32;
    pub fn loq_explore_ends(
        script: *const u8,
        script_len: usize,
        cores: u64,
        out: *mut u8,
        room: usize,
        len: *mut usize,
        session: *mut loq_session_t,
    ) -> u32;
    pub fn loq_explore_trace(
        script: *const u8,
        script_len: usize,
        kind: u64,
        cores: u64,
        out: *mut u8,
        room: usize,
        len: *mut usize,
        session: *mut loq_session_t,
    ) -> u32;
    pub fn loq_explore_line(
        script: *const u8,
        script_len: usize,
        line: *const u8,
        line_len: usize,
        cores: u64,
        out: *mut u8,
        room: usize,
        len: *mut usize,
        session: *mut loq_session_t,
    ) -> u32;
}
