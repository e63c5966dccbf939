//! What is left of a test, given a fact about the same field (document 01, "Residues").
//!
//! Exactly the lines, never cleverer: x at least 1 given x differs from 0 stays as it is. The
//! greatest number of the field is handed in, so that the lines can be tried on narrow fields.

use crate::rules::{Test, AT_LEAST, AT_MOST, DIFFERS, EQUAL};

/// How a question ended.
#[derive(Clone, Copy, PartialEq, Eq, Hash, Debug)]
pub enum Outcome {
    Holds,
    Fails,
    Absent,
}

/// The three outcomes in the order of a record's next words.
pub const OUTCOMES: [Outcome; 3] = [Outcome::Holds, Outcome::Fails, Outcome::Absent];

/// What is known of a field.
#[derive(Clone, Copy, PartialEq, Eq, Debug)]
pub enum Fact {
    /// The field with this number is absent.
    Absent(u32),
    /// The field is present and this holds of it.
    Known(Test),
}

/// What is left of a test.
#[derive(Clone, Copy, PartialEq, Eq, Debug)]
pub enum Left {
    True,
    False,
    Test(Test),
}

use Left::{False, True};

/// The fact that a question's outcome gives.
pub fn fact(question: Test, outcome: Outcome, full: u32) -> Fact {
    let absent = Fact::Absent(question.field);
    let opposite = |kind, value| Fact::Known(Test { kind, value, ..question });
    match outcome {
        Outcome::Holds => Fact::Known(question),
        Outcome::Absent => absent,
        Outcome::Fails => match question.kind {
            EQUAL => opposite(DIFFERS, question.value),
            DIFFERS => opposite(EQUAL, question.value),
            AT_MOST if question.value == full => absent,
            AT_MOST => opposite(AT_LEAST, question.value + 1),
            _ if question.value == 0 => absent,
            _ => opposite(AT_MOST, question.value - 1),
        },
    }
}

/// What is left of a test given a fact.
pub fn residue(test: Test, fact: Fact, full: u32) -> Left {
    let known = match fact {
        Fact::Absent(field) if field == test.field => return False,
        Fact::Known(known) if known.field == test.field => known,
        _ => return Left::Test(test),
    };
    match known.kind {
        EQUAL if known.mask == full => decided(test.of(known.value)),
        EQUAL => given_equal(test, known.mask, known.value, full),
        DIFFERS => given_differs(test, known.mask, known.value),
        AT_MOST => given_at_most(test, known.value),
        _ => given_at_least(test, known.value, full),
    }
}

fn decided(truth: bool) -> Left {
    if truth {
        True
    } else {
        False
    }
}

fn given_equal(test: Test, mask: u32, value: u32, full: u32) -> Left {
    // The greatest x with these bits; in 64 bits, so that no sum can wrap.
    let most = u64::from(value) + u64::from(full) - u64::from(mask);
    let c = test.value;
    match test.kind {
        EQUAL | DIFFERS => {
            let equal = test.kind == EQUAL;
            if test.value & mask != value & test.mask {
                return decided(!equal);
            }
            let rest = test.mask & !mask;
            if rest == 0 {
                return decided(equal);
            }
            Left::Test(Test { mask: rest, value: test.value & rest, ..test })
        }
        AT_MOST if value > c => False,
        AT_MOST if most <= u64::from(c) => True,
        AT_LEAST if value >= c => True,
        AT_LEAST if most < u64::from(c) => False,
        _ => Left::Test(test),
    }
}

fn given_differs(test: Test, mask: u32, value: u32) -> Left {
    let covers = mask & !test.mask == 0 && test.value & mask == value;
    match test.kind {
        EQUAL if covers => False,
        DIFFERS if covers => True,
        _ => Left::Test(test),
    }
}

fn given_at_most(test: Test, most: u32) -> Left {
    match test.kind {
        EQUAL if test.value > most => False,
        DIFFERS if test.value > most => True,
        AT_MOST if most <= test.value => True,
        AT_LEAST if test.value > most => False,
        _ => Left::Test(test),
    }
}

fn given_at_least(test: Test, least: u32, full: u32) -> Left {
    // The greatest x that a masked test's bits allow.
    let allows = u64::from(test.value) + u64::from(full) - u64::from(test.mask);
    match test.kind {
        EQUAL if allows < u64::from(least) => False,
        DIFFERS if allows < u64::from(least) => True,
        AT_MOST if test.value < least => False,
        AT_LEAST if test.value <= least => True,
        _ => Left::Test(test),
    }
}
