//! The proved archive's exports, and the numbers of statuses, calls and questions: as in `argus.h`, which says
//! what each takes, returns and asks of its caller. The crate `argus-guardian` stands on this one.
#![allow(
    clippy::missing_safety_doc,
    reason = "the header says what each function asks of its caller"
)]

use std::ffi::c_void;

/// The handle of a guardian, which the library fills in. All zero: closed.
#[repr(C)]
pub struct Handle {
    mark: u32,
    at: *mut c_void,
}

impl Handle {
    /// A handle without a guardian.
    pub const CLOSED: Handle = Handle {
        mark: 0,
        at: std::ptr::null_mut(),
    };
}

/// The handle of a guardian whose commit is ready: `argus_ready`. All zero: none.
#[repr(C)]
pub struct Ready {
    mark: u32,
    at: *mut c_void,
}

impl Ready {
    /// A handle without a commit.
    pub const NOTHING: Ready = Ready {
        mark: 0,
        at: std::ptr::null_mut(),
    };
}

/// The handle of a call that was read: `argus_parsed`. All zero: none.
#[repr(C)]
pub struct Parsed {
    mark: u32,
    at: *mut c_void,
}

impl Parsed {
    /// A handle without a call.
    pub const NOTHING: Parsed = Parsed {
        mark: 0,
        at: std::ptr::null_mut(),
    };
}

/// A status and a number: `argus_answer`.
#[repr(C)]
pub struct Answer {
    pub status: u32,
    pub number: i64,
}

/// One call of a list: `argus_listed_call`.
#[repr(C)]
pub struct ListedCall {
    pub kind: u32,
    pub demand: u32,
    pub action: u32,
    pub begun_by: u32,
    pub object: u32,
    pub status: u32,
    pub first: i64,
    pub second: i64,
    pub number: i64,
    pub text: *const u8,
    pub text_size: usize,
}

// `hosts/declarations.py` compares those that begin with `argus_c_` with the archive's source.
unsafe extern "C" {
    pub fn argus_open(handle: *mut Handle) -> Answer;
    pub fn argus_parse(
        parsed: *mut Parsed,
        kind: u32,
        action: u32,
        object: u32,
        first: i64,
        second: i64,
        text: *const c_void,
        text_size: usize,
    ) -> Answer;
    pub fn argus_c_open(handle: *mut Handle, beside: *mut Handle) -> u32;
    pub fn argus_c_close(handle: *mut Handle) -> u32;
    pub fn argus_c_call(
        handle: *mut Handle,
        kind: u32,
        action: u32,
        object: u32,
        first: i64,
        second: i64,
        text: *const u8,
        text_size: usize,
        number: *mut i64,
    ) -> u32;
    pub fn argus_c_call_each(
        handle: *mut Handle,
        calls: *mut ListedCall,
        count: usize,
        made: *mut usize,
    ) -> u32;
    pub fn argus_c_tell(
        handle: *mut Handle,
        question: u32,
        action: u32,
        object: u32,
        entry: u64,
        number: *mut i64,
    ) -> u32;
    pub fn argus_c_abort_live(handle: *mut Handle) -> u32;
    pub fn argus_c_checkpoint(handle: *mut Handle) -> u32;
    pub fn argus_c_reply(
        handle: *mut Handle,
        room: *mut u8,
        room_size: usize,
        size: *mut usize,
    ) -> u32;
    pub fn argus_c_renew(handle: *mut Handle) -> u32;
    pub fn argus_c_resume(
        handle: *mut Handle,
        text: *const u8,
        text_size: usize,
        bytes: *mut usize,
        lines: *mut usize,
        number: *mut i64,
    ) -> u32;
    pub fn argus_c_resumed(handle: *mut Handle, dropped: *mut u64) -> u32;
    pub fn argus_c_lines(
        handle: *mut Handle,
        from: u64,
        room: *mut u8,
        room_size: usize,
        size: *mut usize,
        count: *mut u64,
    ) -> u32;
    pub fn argus_c_version() -> u32;
    pub fn argus_c_ready_commit(handle: *mut Handle, ready: *mut Ready, action: u32) -> u32;
    pub fn argus_c_ready_line(
        ready: *mut Ready,
        room: *mut u8,
        room_size: usize,
        size: *mut usize,
    ) -> u32;
    pub fn argus_c_make_ready(ready: *mut Ready, handle: *mut Handle, number: *mut i64) -> u32;
    pub fn argus_c_cancel_ready(ready: *mut Ready, handle: *mut Handle) -> u32;
    pub fn argus_c_parse(
        beside: *mut Handle,
        parsed: *mut Parsed,
        kind: u32,
        action: u32,
        object: u32,
        first: i64,
        second: i64,
        text: *const u8,
        text_size: usize,
        number: *mut i64,
    ) -> u32;
    pub fn argus_c_call_parsed(handle: *mut Handle, parsed: *mut Parsed, number: *mut i64) -> u32;
    pub fn argus_c_drop_parsed(parsed: *mut Parsed) -> u32;
}

/// The outcome of a call: `argus_status`.
pub mod status {
    pub const DONE: u32 = 0;
    pub const OBJECT: u32 = 1;
    pub const ACTION: u32 = 2;
    pub const NUMBER: u32 = 3;
    pub const FLAG: u32 = 4;
    pub const VALUE: u32 = 5;
    pub const CONTENT: u32 = 6;
    pub const TEXT: u32 = 7;
    pub const SIGNAL: u32 = 8;
    pub const REFUSED: u32 = 9;
    pub const NO_MEMORY: u32 = 10;
    pub const NOT_UTF8: u32 = 12;
    pub const BAD_TEXT: u32 = 13;
    pub const BAD_SHAPE: u32 = 14;
    pub const TOO_SMALL: u32 = 17;
    pub const NOT_THERE: u32 = 18;
    pub const BUSY: u32 = 19;
    pub const FULL: u32 = 20;
    pub const UNMET: u32 = 22;
    pub const NOT_BEGUN: u32 = 23;
    pub const NOT_AN_OPENING: u32 = 25;
    pub const NO_LINE: u32 = 26;
    pub const NOT_NEXT: u32 = 27;
    pub const NOT_SOUND: u32 = 28;
    pub const NOT_THE_REPLY: u32 = 29;
}

/// What the outcome of a call must be for a list to go on: `argus_demand`.
pub mod demand {
    pub const NO_REFUSAL: u32 = 0;
    pub const NOTHING: u32 = 1;
    pub const NO_SIGNAL: u32 = 2;
}

/// The journalled calls: `argus_kind`.
pub mod kind {
    pub const DECLARE: u32 = 0;
    pub const BEGIN_TOP: u32 = 1;
    pub const BEGIN_SUB: u32 = 2;
    pub const BEGIN_NESTED: u32 = 3;
    pub const COMMIT: u32 = 4;
    pub const ABORT: u32 = 5;
    pub const ABORT_OTHERS: u32 = 6;
    pub const TEST_READ: u32 = 7;
    pub const TEST_WRITE: u32 = 8;
    pub const WHOLE: u32 = 9;
    pub const FIELD: u32 = 10;
    pub const LOW: u32 = 11;
    pub const HIGH: u32 = 12;
    pub const SIZE: u32 = 13;
    pub const FETCH: u32 = 14;
    pub const BOTTOM: u32 = 15;
    pub const TOP: u32 = 16;
    pub const IS_TAG: u32 = 17;
    pub const TAG_VALUE: u32 = 18;
    pub const CREATE: u32 = 19;
    pub const SET_FIELD: u32 = 20;
    pub const STORE: u32 = 21;
    pub const ADDH: u32 = 22;
    pub const ADDL: u32 = 23;
    pub const REMH: u32 = 24;
    pub const REML: u32 = 25;
    pub const SET_LOW: u32 = 26;
    pub const TRIM: u32 = 27;
    pub const CHANGE_TAG: u32 = 28;
    pub const TOUCH: u32 = 29;
    pub const SET_FIELD_INT: u32 = 30;
    pub const STORE_INT: u32 = 31;
    pub const ADDH_INT: u32 = 32;
    pub const ADDL_INT: u32 = 33;
    pub const CHANGE_TAG_INT: u32 = 34;
    pub const SET_FIELD_BOOL: u32 = 35;
    pub const STORE_BOOL: u32 = 36;
    pub const ADDH_BOOL: u32 = 37;
    pub const ADDL_BOOL: u32 = 38;
    pub const CHANGE_TAG_BOOL: u32 = 39;
}

/// The questions, which aren't journalled: `argus_question`.
pub mod question {
    pub const CAN_READ: u32 = 0;
    pub const CAN_WRITE: u32 = 1;
    pub const OBJECTS: u32 = 2;
    pub const ACTIONS: u32 = 3;
    pub const ENTRIES: u32 = 4;
    pub const BASE: u32 = 5;
    pub const READERS: u32 = 6;
    pub const VERSIONS: u32 = 7;
    pub const ENTRY: u32 = 8;
    pub const LIST_BASES: u32 = 9;
    pub const LIST_STACKS: u32 = 10;
    pub const LIST_JOURNAL: u32 = 11;
    pub const LIST_AUDIT: u32 = 12;
    pub const SHAPE: u32 = 13;
    pub const ACTION_STATUS: u32 = 14;
    pub const FIRST_LIVE: u32 = 15;
    pub const FIRST_ENTRY: u32 = 16;
}

/// The version of the library that belongs to this crate, in one number.
pub const VERSION_NUMBER: u32 = 100;
