//! The two moves: the words that both forms have lie at the same places, so that one copy serves both ways.
//! What the form moved to has besides becomes 0, and what it lacks is left behind.

use reference::{Answer, Call, Form};

use super::{faults, require, sound, Outcome, Table};
use crate::memory::{columns_word, form_number, header, keeper, kind, page, put_word, state};
use crate::memory::{words, Layout, Region, ScanEntry, OPENS, ROWS, WORD};

/// Whether a call works on a form, for the fault at hand.
pub(super) fn works_on<const FAULT: u8>(call: &Call, form: Form) -> bool {
    match call {
        Call::Upgrade => form == Form::First || FAULT == faults::UPGRADE_OF_THE_NEWEST,
        Call::Downgrade => form == Form::Newest || FAULT == faults::DOWNGRADE_OF_FORM_1,
        Call::BeginAs { .. } => form == Form::Newest || FAULT == faults::BEGIN_AS_ON_FORM_1,
        Call::KeeperAt { .. } => form == Form::Newest || FAULT == faults::KEEPER_AT_ON_FORM_1,
        Call::Latest { .. } => form == Form::Newest || FAULT != faults::FORM_1_REFUSED_BY_LATEST,
        _ => true,
    }
}

impl<const FAULT: u8> Table<'_, FAULT> {
    /// Moves the store to a form, into the second memory.
    pub(super) fn move_to(&mut self, form: Form, second: &mut [u8]) -> Outcome {
        let layout = self.layout.moved_to(form);
        let back = form == Form::First;
        let wanted = match FAULT {
            faults::BACK_WANTS_THE_NEWEST_NEED => self.layout.need().max(layout.need()),
            _ => layout.need(),
        };
        let long = second.len() >= wanted;
        require(long || (FAULT == faults::BACK_TESTS_KEEPERS_FIRST && back), 2)?;
        let store = FAULT == faults::SECOND_STORE_REFUSED && sound(second, self.scans).is_some();
        require(!store, 2)?;
        let bears = back && self.bears_keeper();
        if bears && FAULT == faults::WRITES_THOUGH_REFUSED {
            second.fill(0);
        }
        require(!bears, 22)?;
        require(long, 2)?;
        let both = layout.need().min(self.layout.need());
        second[..both].copy_from_slice(&self.memory[..both]);
        if FAULT != faults::MOVE_LEAVES_KEEPERS {
            second[both..layout.need()].fill(0);
        }
        let said = if FAULT == faults::MOVE_FORGETS_THE_FORM { self.layout.form } else { form };
        put_word(second, header::COLUMNS, columns_word(layout.columns as u32, form_number(said)));
        if FAULT != faults::NONE {
            self.spoil(second, &layout);
        }
        Ok(Answer::Done)
    }

    /// Whether a given row, a used record or an open transaction bears a keeper other than 0.
    fn bears_keeper(&self) -> bool {
        if FAULT == faults::BACK_WITHOUT_KEEPER_TEST {
            return false;
        }
        let unused = FAULT == faults::BACK_HEEDS_UNUSED;
        let given = match self.header(header::ROWS_GIVEN) as usize {
            _ if unused => self.layout.length(Region::RowKeeper),
            given => given.min(self.layout.length(Region::RowKeeper)),
        };
        let rows = FAULT != faults::BACK_HEEDS_NO_ROWS
            && words(self.run(Region::RowKeeper, 0, given)).any(Self::borne);
        let slots = (0..self.layout.ranges).flat_map(|range| {
            let used = if unused { self.layout.capacity } else { self.used(range) as usize };
            let first = range * self.layout.capacity;
            first..first + used
        });
        let records = FAULT != faults::BACK_HEEDS_NO_RECORDS && { slots }
            .any(|slot| self.counts(slot) && Self::borne(self.keeper_at(slot)));
        let open = FAULT != faults::BACK_HEEDS_NO_OPEN
            && (0..OPENS).any(|open| {
                (self.get(Region::Opens, open) != 0 || unused)
                    && Self::borne(self.get_later(Region::OpenKeeper, open))
            });
        rows || records || open
    }

    fn keeper_at(&self, slot: usize) -> u32 {
        self.get_later(Region::TailKeeper, slot)
    }

    fn borne(word: u32) -> bool {
        match FAULT {
            faults::BACK_HEEDS_WHOLE_WORDS => word != 0,
            _ => keeper(word) != 0,
        }
    }

    /// Whether a record's keeper is looked at.
    fn counts(&self, slot: usize) -> bool {
        match FAULT {
            faults::BACK_HEEDS_NO_ABORTED => self.get(Region::TailState, slot) < state::ABORTED,
            faults::BACK_HEEDS_NO_DELETES => self.get(Region::TailKind, slot) < kind::DELETE,
            _ => true,
        }
    }

    /// Parts of the wrong stores: what a wrong move does besides.
    fn spoil(&mut self, second: &mut [u8], layout: &Layout) {
        let all = |region: Region| {
            let first = layout.base(region);
            first * WORD..(first + layout.length(region)) * WORD
        };
        match FAULT {
            faults::MOVE_FORGETS_OPEN_TRANSACTIONS => second[all(Region::Opens)].fill(0),
            faults::MOVE_FORGETS_CHANGES => second[all(Region::Changes)].fill(0),
            faults::MOVE_FORGETS_ORDINALS => {
                second[all(Region::RowOrdinal)].fill(0);
                second[all(Region::TailOrdinal)].fill(0);
            }
            faults::MOVE_LOSES_MADE => second[all(Region::PageMade)].fill(0),
            faults::MOVE_LOSES_REPLACED => second[all(Region::PageReplaced)].fill(0),
            faults::MOVE_FORGETS_WAITING_PAGES => {
                for at in 0..layout.pages {
                    if self.get(Region::PageState, at) >= page::WAITING {
                        put_word(second, layout.base(Region::PageState) + at, page::FREE);
                    }
                }
            }
            faults::MOVE_LEAVES_FREE_CELLS => {
                for at in 0..layout.pages {
                    if self.get(Region::PageState, at) == page::FREE {
                        let first = all(Region::Cells).start + at * ROWS * WORD;
                        second[first..first + ROWS * WORD].fill(0);
                    }
                }
            }
            faults::MOVE_CLEARS_UNUSED_HEADER => {
                second[(header::COMMITS_MADE + 1) * WORD..header::WORDS * WORD].fill(0);
            }
            faults::MOVE_CLOSES_SCANS => self.scans.fill(ScanEntry::FREE),
            faults::MOVE_PAST_THE_NEED => second[layout.need()..].fill(0),
            faults::MOVE_WRITES_THE_FIRST => put_word(self.memory, header::COLUMNS, 0),
            _ => {}
        }
    }
}
