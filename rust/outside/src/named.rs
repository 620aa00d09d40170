//! The tables A to H, the ninth and E at rest of docs/SPECIFICATION.md (Worked tables), with their figures typed
//! from that text, and the smallest tables with a hang, by hand.

use crate::accept::MAX_ALLOWANCE;
use crate::calls::{Decision, SAFE, UNDECIDED, UNSAFE};
use crate::table::{Dialogue, WORDS};

/// A dialogue, an allowance, and what decide must say.
pub struct Named {
    pub name: &'static str,
    pub dialogue: Dialogue,
    pub allowance: usize,
    pub decision: Decision,
    pub path: &'static [u16],
    /// The backward number, where the text gives one.
    pub backward: Option<usize>,
}

pub fn a() -> Dialogue {
    Dialogue::of(3, &[0], &[2], &[], &[(0, 1), (1, 0), (2, 2)])
}

pub fn b() -> Dialogue {
    Dialogue::of(5, &[0], &[3], &[], &[(0, 1), (1, 2), (2, 3), (4, 4)])
}

pub fn d() -> Dialogue {
    let steps = [(0, 1), (1, 2), (2, 3), (4, 4)];
    Dialogue::of(5, &[0], &[3], &[&[0], &[1], &[2]], &steps)
}

pub fn e() -> Dialogue {
    Dialogue::of(3, &[0], &[2], &[], &[(0, 0), (1, 2)])
}

/// E without its step 0 → 0, state 0 resting: it would be unsafe if a state without successors were left out of hold.
pub fn e_at_rest() -> Dialogue {
    Dialogue::of(3, &[0], &[2], &[], &[(1, 2)]).resting_on(&[0])
}

pub fn f() -> Dialogue {
    Dialogue::of(1, &[0], &[0], &[], &[])
}

pub fn g() -> Dialogue {
    Dialogue::of(1, &[], &[], &[], &[])
}

/// An untouched draft: no states.
pub fn draft() -> Dialogue {
    Dialogue::of(0, &[], &[], &[], &[])
}

/// Without groups, or with one.
pub fn h(groups: &[&[usize]]) -> Dialogue {
    Dialogue::of(61, &[0], &[60], groups, &[(0, 1), (1, 0), (2, 60)])
}

/// Its count is 1, and would be 2 if each new Z replaced the list.
pub fn ninth() -> Dialogue {
    let steps = [(0, 0), (0, 1), (1, 3), (2, 3), (3, 0), (3, 2)];
    Dialogue::of(4, &[0], &[2], &[&[0]], &steps)
}

/// A step to a state without successors: a hang, unless it rests and is not marked.
pub fn hang(marked: &[usize], resting: &[usize]) -> Dialogue {
    Dialogue::of(2, &[0], marked, &[], &[(0, 1)]).resting_on(resting)
}

/// A set whose states are all below 64.
fn first_word(word: u64) -> [u64; WORDS] {
    let mut words = [0; WORDS];
    words[0] = word;
    words
}

pub fn decided() -> Vec<Named> {
    let safe = |count, invariant: u64, size| Decision {
        verdict: SAFE,
        count,
        invariant: first_word(invariant),
        size,
        ..Decision::default()
    };
    let unsafe_ = |count, steps| Decision {
        verdict: UNSAFE,
        count,
        steps,
        ..Decision::default()
    };
    let undecided = |count| Decision {
        verdict: UNDECIDED,
        count,
        ..Decision::default()
    };
    let named = |name, dialogue, allowance, decision, path, backward| Named {
        name,
        dialogue,
        allowance,
        decision,
        path,
        backward,
    };
    // Z0 is {0} there; R is {0}, S is empty.
    let step_to_1 = |name, dialogue| {
        named(
            name,
            dialogue,
            MAX_ALLOWANCE,
            unsafe_(0, 1),
            &[0, 1][..],
            Some(1),
        )
    };
    vec![
        named("A", a(), MAX_ALLOWANCE, safe(0, 0b11, 2), &[], None),
        named(
            "B",
            b(),
            MAX_ALLOWANCE,
            unsafe_(3, 3),
            &[0, 1, 2, 3],
            Some(3),
        ),
        named("C with 2", b(), 2, undecided(2), &[], Some(3)),
        named("C with 3", b(), 3, unsafe_(3, 3), &[0, 1, 2, 3], Some(3)),
        named(
            "D",
            d(),
            MAX_ALLOWANCE,
            unsafe_(0, 3),
            &[0, 1, 2, 3],
            Some(3),
        ),
        named("E", e(), MAX_ALLOWANCE, safe(1, 0b1, 1), &[], None),
        named(
            "E at rest",
            e_at_rest(),
            MAX_ALLOWANCE,
            safe(1, 0b1, 1),
            &[],
            None,
        ),
        named("F", f(), MAX_ALLOWANCE, unsafe_(0, 0), &[0], None),
        named("G", g(), MAX_ALLOWANCE, safe(0, 0, 0), &[], None),
        named("draft", draft(), MAX_ALLOWANCE, safe(0, 0, 0), &[], Some(0)),
        named("draft with 0", draft(), 0, safe(0, 0, 0), &[], Some(0)),
        named(
            "ninth",
            ninth(),
            MAX_ALLOWANCE,
            unsafe_(1, 3),
            &[0, 1, 3, 2],
            None,
        ),
        step_to_1("a hang", hang(&[], &[])),
        step_to_1("a hang, resting before it", hang(&[], &[0])),
        step_to_1("marked", hang(&[1], &[])),
        step_to_1("marked and resting", hang(&[1], &[1])),
        named(
            "resting",
            hang(&[], &[1]),
            MAX_ALLOWANCE,
            safe(0, 0b11, 2),
            &[],
            Some(0),
        ),
    ]
}

/// The first bytes of E's only block in the old form, content after the block's number; all later content is 0.
pub const E_OLD_FRONT: [u8; 11] = [0, 0, 3, 0, 0, 0, 1, 4, 1, 4, 0];
pub const E_OLD_CHECK: [u8; 2] = [97, 0];

/// The same in the new form, by hand: 128 is the high byte of 32,768, and the resting set is empty. The check is
/// 3 · 3 + 6 · 128 + 7 · 1 + 8 · 4 + 10 · 1 + 11 · 4 = 870 = 3 · 256 + 102.
pub const E_FRONT: [u8; 12] = [0, 0, 3, 0, 0, 128, 1, 4, 0, 1, 4, 0];
pub const E_CHECK: [u8; 2] = [102, 3];
