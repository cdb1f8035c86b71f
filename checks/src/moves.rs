//! What an accepted move leaves in the second memory, by the words of document 02's Item 7 and the layout:
//! "moves a form 1 memory into a second lent memory as form 2, with keeper 0 throughout, and another moves it
//! back"; "Moved there and back with no call between, the needed bytes equal the first ones; bytes beyond the
//! need are untouched." So each word that both forms have comes over, whatever it holds, but for the one that
//! says the form. Written to judge a store, so it is plain rather than quick.

use reference::{Call, Form};

use crate::memory::{columns_word, differing, form_number, header, where_differ, word};
use crate::memory::{Layout, Region};

/// The bytes that a move needs in the second memory; nothing for any other call, and where the memory has no
/// measures.
pub fn need(memory: &[u8], call: &Call) -> Option<usize> {
    let form = call.moves_to()?;
    Some(Layout::stored(memory)?.moved_to(form).need())
}

/// The second memory as the move of a usable memory leaves it.
pub fn left(memory: &[u8], second: &[u8], to: Form) -> Vec<u8> {
    let from = Layout::stored(memory).expect("measures");
    let layout = from.moved_to(to);
    let mut left = Vec::with_capacity(second.len());
    for region in Region::ALL {
        for place in 0..layout.length(region) {
            let moved = match (region, place) {
                (Region::Header, header::COLUMNS) => {
                    columns_word(layout.columns as u32, form_number(to))
                }
                _ if place < from.length(region) => word(memory, from.base(region) + place),
                // The keeper of what a form without keepers has.
                _ => 0,
            };
            left.extend_from_slice(&moved.to_le_bytes());
        }
    }
    left.extend_from_slice(&second[layout.need()..]);
    left
}

/// Whether the second memory is as an accepted move leaves it.
pub fn judge(memory: &[u8], before: &[u8], after: &[u8], to: Form) -> Result<(), String> {
    let due = left(memory, before, to);
    alike(&due, after)
        .map_err(|place| format!("the second memory is not as the move leaves it, {place}"))
}

/// Whether two memories of one form are alike in the bytes that they need.
pub fn needed_alike(one: &[u8], other: &[u8]) -> Result<(), String> {
    let need = Layout::stored(one).expect("measures").need();
    alike(&one[..need], &other[..need])
        .map_err(|place| format!("moved there and back the memory is another, {place}"))
}

fn alike(one: &[u8], other: &[u8]) -> Result<(), String> {
    let at = differing(one, other).next();
    at.map_or(Ok(()), |at| Err(where_differ(one, other, at)))
}
