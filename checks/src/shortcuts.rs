//! Shortcuts to the conditions of 9, 10, 17 and 18: right in every store that calls alone have
//! written, and not by the papers' words elsewhere. They serve to count the memories in which the
//! two differ, and to see that the checks tell a store apart that takes one.

use reference::Call;

use crate::facts::Stored;
use crate::memory::{kind, page, state, Region, ROWS};
use crate::stated::{self, Numbers};

/// The numbers that have a shortcut.
pub const NUMBERS: [u8; 4] = [9, 10, 17, 18];

/// The number that a call is refused with where one condition goes by its shortcut and the others by
/// the words.
pub fn refusal(stored: &Stored, call: &Call, shortcut: u8) -> Option<u8> {
    if !stated::works_on(stored, call) {
        return Some(2);
    }
    let (tests, numbers) = stated::tests(call);
    tests.iter().copied().find(|number| {
        if *number == shortcut {
            applies(stored, *number, &numbers)
        } else {
            stated::applies(stored, *number, call, &numbers)
        }
    })
}

fn applies(s: &Stored, number: u8, n: &Numbers) -> bool {
    let of_row = |region| s.get(region, n.row as usize);
    let of_newest = |region| {
        let link = of_row(Region::RowLink);
        (link != 0).then(|| s.of_record(region, n.row as usize / ROWS, link))
    };
    match number {
        // By the state words of the row and of its newest record.
        9 => {
            let row = (of_row(Region::RowTransaction), of_row(Region::RowState));
            let newest = of_newest(Region::TailTransaction).zip(of_newest(Region::TailState));
            let holds = |(by, state)| by != n.transaction && state == state::OPEN;
            holds(row) || newest.is_some_and(holds)
        }
        10 => {
            let newest = of_newest(Region::TailKind).zip(of_newest(Region::TailState));
            of_row(Region::RowState) > state::COMMITTED
                || newest
                    .is_some_and(|(kind, state)| kind >= kind::DELETE && state <= state::COMMITTED)
        }
        // By the state words of the records that the page does not hold yet.
        17 => (stated::lineage(s, n) + 1..=n.through)
            .any(|record| s.of_record(Region::TailState, n.range as usize, record) == state::OPEN),
        // By the state words of the pages.
        18 => (0..s.layout.pages).all(|at| s.get(Region::PageState, at) != page::FREE),
        _ => unreachable!("{number} has no shortcut"),
    }
}

/// Memories that no call made in which a shortcut gives another refusal than the words, each counted
/// once: for any shortcut, and for each.
#[derive(Clone, Copy, Debug, Default, PartialEq, Eq)]
pub struct Differing {
    pub memories: u64,
    pub by_9: u64,
    pub by_10: u64,
    pub by_17: u64,
    pub by_18: u64,
}

/// For each of `NUMBERS`, whether its shortcut gave another refusal on the memory at hand.
pub type Differs = [bool; 4];

/// Notes where a call's refusal by the words, `right`, is not that of a shortcut.
pub fn note(differs: &mut Differs, stored: &Stored, call: &Call, right: Option<u8>) {
    for (differs, number) in differs.iter_mut().zip(NUMBERS) {
        *differs |=
            stated::tests(call).0.contains(&number) && refusal(stored, call, number) != right;
    }
}

impl Differing {
    pub fn count(&mut self, differs: Differs) {
        let [by_9, by_10, by_17, by_18] = differs.map(u64::from);
        let memories = u64::from(differs.contains(&true));
        self.add(Differing { memories, by_9, by_10, by_17, by_18 });
    }

    pub fn add(&mut self, other: Differing) {
        self.memories += other.memories;
        self.by_9 += other.by_9;
        self.by_10 += other.by_10;
        self.by_17 += other.by_17;
        self.by_18 += other.by_18;
    }
}
