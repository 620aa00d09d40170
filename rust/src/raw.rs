//! Generated from shuntberry.h, which has a comment for each call: do not edit. The calls as the library
//! exports them for C, their structs, and the constants.

// ---- Sizes

/// The greatest n.
pub const MAX_STATES: usize = 512;
/// The greatest g.
pub const MAX_GROUPS: usize = 64;
/// The greatest allowance, and that of a release check.
pub const MAX_ALLOWANCE: usize = 512;
/// Words of a set.
pub const SET_WORDS: usize = 8;
/// Sets that stand before the groups: initial, marked and resting.
pub const HEAD_SETS: usize = 3;
/// The least length of a store, in words.
pub const STORE_WORDS: usize = 4_632;
/// The least length of a path buffer, in 16-bit places.
pub const PATH_PLACES: usize = 512;
/// The distance of a state from which no forbidden state can be reached.
pub const UNREACHABLE: usize = 65_535;
/// A file is whole blocks of this many bytes.
pub const BLOCK_BYTES: usize = 512;
/// The length of the largest file, 73 blocks.
pub const FILE_BYTES: usize = 37_376;
/// The least length of the buffer for the text of a file, in bytes (check).
pub const CHECK_TEXT: usize = 4_096;
/// The greatest site number.
pub const MAX_SITE: usize = 65_520;
/// The greatest fan-out of a generated table.
pub const MAX_FAN_OUT: usize = 16;
/// The greatest length of a pump's log, in bytes: 16,384 entries.
pub const MAX_LOG: usize = 32_768;
/// The least length of a buffer of possible steps, in words.
pub const POSSIBLE_WORDS: usize = 4_096;
/// The greatest time, in minutes: 2^31 - 1.
pub const MAX_TIME: usize = 2_147_483_647;
/// The greatest number of windows.
pub const MAX_WINDOWS: usize = 32;
/// The greatest number of closed days.
pub const MAX_DAYS: usize = 64;

// ---- Where the sets stand in a store, as the index of their first word

/// The initial set.
pub const INITIAL: usize = 0;
/// The marked set: states that are forbidden, whether they are resting or not.
pub const MARKED: usize = 8;
/// The resting set: states that may lead nowhere.
pub const RESTING: usize = 16;

// ---- Refusal numbers

/// The call was not refused.
pub const ACCEPTED: u32 = 0;

// ---- Verdicts

/// No forbidden state can be reached from an initial one (decide modal: in no choice).
pub const SAFE: u32 = 0;
/// One can be reached: the path buffer shows how (decide modal: in every choice).
pub const UNSAFE: u32 = 1;
/// The allowance was used up before either was known (decide).
pub const UNDECIDED: u32 = 2;
/// None can be reached with the certain steps alone, one can with all possible steps: the path buffer shows how (decide modal).
pub const DEPENDS: u32 = 3;

// ---- What a refused call has in place of an answer

/// For a verdict (decide, decide modal).
pub const NO_VERDICT: u32 = 255;
/// For a yes or no, 1 or 0: found, within, never.
pub const NO_ANSWER: u32 = 255;
/// For n and g (read). Every call that takes n refuses this one, with 14 unless 10 or 24 comes first.
pub const NO_TABLE: u32 = 65_535;
/// For the minute (next open), also if no minute is ever open: later than any that the call gives.
pub const NO_MINUTE: u32 = 4_294_967_295;

// ---- Why a state is forbidden

/// It is not forbidden.
pub const FORBIDDEN_NOT: u32 = 0;
/// It is marked, whether it is a hang too or not.
pub const FORBIDDEN_MARKED: u32 = 1;
/// It is a hang: it has no successor, and is not resting.
pub const FORBIDDEN_HANG: u32 = 2;

// ---- The structs

/// What `shuntberry_check` answers.
#[repr(C)]
#[derive(Clone, Copy, Debug, PartialEq, Eq)]
pub struct Checked {
    /// Bytes of text at the front of the buffer; of a refused call 0.
    pub length: usize,
    /// The table's number of states; `NO_TABLE` where the file or the call is refused.
    pub n: usize,
    /// 0, or the number of the refusal of the call itself.
    pub refusal: u32,
    /// 0, or the number with which the file is refused; that is an answer, and the text says so.
    pub file_refusal: u32,
    /// `SAFE` or `UNSAFE`; `NO_VERDICT` where the file or the call is refused.
    pub verdict: u32,
    /// 0.
    pub reserved: u32,
}

/// What `shuntberry_decide` answers.
#[repr(C)]
#[derive(Clone, Copy, Debug, PartialEq, Eq)]
pub struct Decision {
    /// If safe, a set with the initial states, the successors of each of its states, and no forbidden state; else empty.
    pub invariant: [u64; 8],
    /// 0, or the number of the refusal.
    pub refusal: u32,
    /// `SAFE`, `UNSAFE` or `UNDECIDED`; of a refused call `NO_VERDICT`.
    pub verdict: u32,
    /// The number of refinements made.
    pub count: u32,
    /// The number of states in the invariant.
    pub size: u32,
    /// If unsafe, the number of steps of the path; else 0.
    pub steps: u32,
    /// 0.
    pub reserved: u32,
}

/// What `shuntberry_shortest_path` answers.
#[repr(C)]
#[derive(Clone, Copy, Debug, PartialEq, Eq)]
pub struct Shortest {
    /// 0, or the number of the refusal.
    pub refusal: u32,
    /// 1 if there is a path, 0 if there is none; of a refused call `NO_ANSWER`.
    pub found: u32,
    /// The number of its steps, 0 if there is none.
    pub steps: u32,
}

/// What `shuntberry_within` answers.
#[repr(C)]
#[derive(Clone, Copy, Debug, PartialEq, Eq)]
pub struct Within {
    /// 0, or the number of the refusal.
    pub refusal: u32,
    /// 1 if there is a path of at most k steps, 0 if there is none; of a refused call `NO_ANSWER`.
    pub within: u32,
}

/// What `shuntberry_read` answers.
#[repr(C)]
#[derive(Clone, Copy, Debug, PartialEq, Eq)]
pub struct Table {
    /// 0, or the number of the refusal.
    pub refusal: u32,
    /// The table's number of states; of a refused call `NO_TABLE`, so do not use it as the bound of a loop then.
    pub n: u32,
    /// The table's number of groups; of a refused call `NO_TABLE`.
    pub g: u32,
}

/// What `shuntberry_write` answers.
#[repr(C)]
#[derive(Clone, Copy, Debug, PartialEq, Eq)]
pub struct File {
    /// 0, or the number of the refusal.
    pub refusal: u32,
    /// The length of the file in bytes, a multiple of 512; 0 for a draft, and of a refused call.
    pub length: u32,
}

/// What `shuntberry_replay` answers.
#[repr(C)]
#[derive(Clone, Copy, Debug, PartialEq, Eq)]
pub struct Replay {
    /// 0, or the number of the refusal.
    pub refusal: u32,
    /// The number of entries before the first that breaks the walk; all of them if none does.
    pub followed: u32,
    /// The number of different states that those hold.
    pub seen: u32,
    /// 100 times `seen`, divided by the number of states that can be reached; 0 if there are none.
    pub percent: u32,
    /// What that division leaves; 0 if there are none.
    pub remainder: u32,
}

/// A set of states. It is passed and returned by value: no call keeps or changes the caller's own.
#[repr(C)]
#[derive(Clone, Copy, Debug, PartialEq, Eq)]
pub struct Set {
    /// Words.
    pub words: [u64; 8],
}

/// What the three calls of a session answer, by value.
#[repr(C)]
#[derive(Clone, Copy, Debug, PartialEq, Eq)]
pub struct Session {
    /// The set after the call; of a refused edit the set that it was given, of a refused opening the empty one.
    pub reachable: Set,
    /// 0, or the number of the refusal.
    pub refusal: u32,
    /// 0.
    pub reserved: u32,
}

/// What `shuntberry_decide_modal` answers.
#[repr(C)]
#[derive(Clone, Copy, Debug, PartialEq, Eq)]
pub struct Modal {
    /// If safe, that of a release check on the possible steps, which is an invariant of every choice; if it depends, that on the certain steps; else empty.
    pub invariant: [u64; 8],
    /// 0, or the number of the refusal.
    pub refusal: u32,
    /// `SAFE`, `UNSAFE` or `DEPENDS`; of a refused call `NO_VERDICT`.
    pub verdict: u32,
    /// The number of states in the invariant.
    pub size: u32,
    /// If unsafe or if it depends, the number of steps of the path; else 0.
    pub steps: u32,
}

/// What `shuntberry_next_open` answers.
#[repr(C)]
#[derive(Clone, Copy, Debug, PartialEq, Eq)]
pub struct Minute {
    /// 0, or the number of the refusal.
    pub refusal: u32,
    /// 1 if there is no window, so that no minute is ever open; else 0; of a refused call `NO_ANSWER`.
    pub never: u32,
    /// The first open minute; `NO_MINUTE` if there is none, or if the call is refused.
    pub minute: u32,
}

// ---- The calls

unsafe extern "C" {
    /// Never refuses.
    pub fn shuntberry_version() -> u32;

    /// Refuses with 24 or 19.
    pub fn shuntberry_check(
        input: *const u8,
        input_len: usize,
        site: usize,
        text: *mut u8,
        text_len: usize,
    ) -> Checked;

    /// Refuses with 10, 14, 15, 17, 20 or 21.
    pub fn shuntberry_decide(
        store: *const u64,
        store_len: usize,
        n: usize,
        g: usize,
        allowance: usize,
        path: *mut u16,
        path_len: usize,
    ) -> Decision;

    /// Refuses with 10, 14, 15, 17 or 21.
    pub fn shuntberry_shortest_path(
        store: *const u64,
        store_len: usize,
        n: usize,
        g: usize,
        path: *mut u16,
        path_len: usize,
    ) -> Shortest;

    /// Refuses with 10, 14, 15, 17 or 23.
    pub fn shuntberry_distances(
        store: *const u64,
        store_len: usize,
        n: usize,
        g: usize,
        distances: *mut u16,
        distances_len: usize,
    ) -> u32;

    /// Refuses with 10, 14, 15 or 17.
    pub fn shuntberry_within(
        store: *const u64,
        store_len: usize,
        n: usize,
        g: usize,
        k: usize,
    ) -> Within;

    /// Refuses with 10, 24, 11, then 12 and 13 block by block, 14, 15, 16, 17 (of set bytes only) or 18; of an input of no bytes with 10 or 24 only.
    pub fn shuntberry_read(
        input: *const u8,
        input_len: usize,
        site: usize,
        store: *mut u64,
        store_len: usize,
    ) -> Table;

    /// Refuses with 10, 24, 14, 15, 17 or 19.
    pub fn shuntberry_write(
        store: *const u64,
        store_len: usize,
        n: usize,
        g: usize,
        site: usize,
        output: *mut u8,
        output_len: usize,
    ) -> File;

    /// Refuses with 11, then 12 and 13 block by block, 14, 15, 16, 17 or 18, as the old form refuses the file, or 19; an input of no bytes with none.
    pub fn shuntberry_rewrite(
        input: *const u8,
        input_len: usize,
        output: *mut u8,
        output_len: usize,
    ) -> File;

    /// Refuses with 10, 14 or 22.
    pub fn shuntberry_generate(
        seed: u32,
        n: usize,
        fan_out: usize,
        store: *mut u64,
        store_len: usize,
    ) -> u32;

    /// Refuses with 10, 14, 15, 17, 25 or 26.
    pub fn shuntberry_replay(
        store: *const u64,
        store_len: usize,
        n: usize,
        g: usize,
        log: *const u8,
        log_len: usize,
    ) -> Replay;

    /// Refuses with 10, 14, 15 or 17.
    pub fn shuntberry_open(store: *const u64, store_len: usize, n: usize, g: usize) -> Session;

    /// Refuses with 10, 14, 15, 17 or 27.
    pub fn shuntberry_add_step(
        store: *mut u64,
        store_len: usize,
        n: usize,
        g: usize,
        reachable: Set,
        from: usize,
        to: usize,
    ) -> Session;

    /// Refuses with 10, 14, 15, 17 or 27.
    pub fn shuntberry_remove_step(
        store: *mut u64,
        store_len: usize,
        n: usize,
        g: usize,
        reachable: Set,
        from: usize,
        to: usize,
    ) -> Session;

    /// Refuses with 10 (either buffer), 14, 15, 17 (either buffer), 28 or 21.
    pub fn shuntberry_decide_modal(
        store: *const u64,
        store_len: usize,
        n: usize,
        g: usize,
        possible: *const u64,
        possible_len: usize,
        path: *mut u16,
        path_len: usize,
    ) -> Modal;

    /// Refuses with 31, 30 or 29.
    pub fn shuntberry_next_open(
        time: usize,
        windows: *const u64,
        windows_len: usize,
        closed_days: *const u32,
        closed_days_len: usize,
    ) -> Minute;
}
