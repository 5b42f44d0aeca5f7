//! Names of what happened in a call, and the reasons to refuse it.

use std::collections::BTreeSet;

/// The census cases that one call met.
#[derive(Clone, Debug, Default)]
pub struct Notes {
    names: BTreeSet<&'static str>,
}

impl Notes {
    pub fn add(&mut self, name: &'static str) {
        self.names.insert(name);
    }

    pub fn add_if(&mut self, holds: bool, name: &'static str) {
        if holds {
            self.add(name);
        }
    }

    pub fn iter(&self) -> impl Iterator<Item = &'static str> + '_ {
        self.names.iter().copied()
    }
}

/// The refusals in the order in which they are tried. A call that tries two of
/// them tries the one that stands earlier here first: 22 comes right after 5,
/// 23 before 12, the others follow their numbers.
const TRIED: [u8; 24] = [
    0, 1, 2, 3, 4, 5, 22, 6, 7, 8, 9, 10, 11, 23, 12, 13, 14, 15, 16, 17, 18, 19, 20, 21,
];

/// The place of a refusal in the order of trying.
fn rank(number: u8) -> usize {
    let place = TRIED.iter().position(|tried| *tried == number);
    place.expect("every refusal has its place")
}

/// Every refusal whose condition holds for a call, each with the clause of the
/// condition. The call is refused by the one that is tried first.
#[derive(Debug, Default)]
pub struct Reasons {
    /// Rank, number and clause.
    held: BTreeSet<(usize, u8, &'static str)>,
}

impl Reasons {
    pub fn add(&mut self, number: u8, clause: &'static str) {
        self.held.insert((rank(number), number, clause));
    }

    pub fn add_if(&mut self, holds: bool, number: u8, clause: &'static str) {
        if holds {
            self.add(number, clause);
        }
    }

    /// The refusal that answers the call.
    pub fn first(&self) -> Option<u8> {
        self.held.first().map(|(_, number, _)| *number)
    }

    pub fn has(&self, number: u8) -> bool {
        self.held.iter().any(|(_, held, _)| *held == number)
    }

    /// Whether this refusal holds, or one that is tried before it.
    pub fn has_up_to(&self, number: u8) -> bool {
        self.first()
            .is_some_and(|first| rank(first) <= rank(number))
    }

    /// Notes the clause that earned the refusal if it stands alone: only then
    /// does the case show that this very clause refuses.
    pub fn note_clause(&self, notes: &mut Notes) {
        let first = self.first();
        let mut clauses = self.held.iter().filter(|(_, n, _)| Some(*n) == first);
        if let (Some((_, _, clause)), None) = (clauses.next(), clauses.next()) {
            notes.add(clause);
        }
    }

    /// Notes which of these pairs hold together, where the first answers.
    pub fn note_order(&self, pairs: &[(u8, u8, &'static str)], notes: &mut Notes) {
        for (earlier, later, name) in pairs {
            notes.add_if(self.first() == Some(*earlier) && self.has(*later), name);
        }
    }
}
