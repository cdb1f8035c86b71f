//! What form 1's making left in a lent memory and list, by the layout alone. No store makes form 1 any more, so
//! lists of calls that start from it start from these bytes.

use reference::{Form, Shape};

use crate::memory::{columns_word, form_number, header, page, put_word, Layout, Region, ScanEntry};

/// The bytes and entries that form 1's making left, whatever memory and list held before: zeros up to the
/// need, but for the measures and the page of each chunk, and free entries. Bytes past the need stay. The
/// memory must be long enough.
pub fn make(memory: &mut [u8], scans: &mut [ScanEntry], shape: &Shape) {
    let layout = Layout::in_form(shape, Form::First);
    memory[..layout.need()].fill(0);
    for (at, measure) in [
        (header::COLUMNS, columns_word(shape.columns, form_number(Form::First))),
        (header::RANGES, shape.ranges),
        (header::CAPACITY, shape.capacity),
        (header::SPARES, shape.spares),
    ] {
        put_word(memory, at, measure);
    }
    for chunk in 0..layout.chunks {
        put_word(memory, layout.base(Region::Current) + chunk, chunk as u32);
        put_word(memory, layout.base(Region::PageChunk) + chunk, chunk as u32);
        put_word(memory, layout.base(Region::PageState) + chunk, page::CURRENT);
    }
    scans.fill(ScanEntry::FREE);
}
