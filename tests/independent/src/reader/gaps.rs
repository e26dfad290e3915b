//! The closing of the gaps by document 02's request [9], written from that paper alone.

use crate::reader::{bit, Answer, Origin, Reader};

/// What the table has for a page that was vacant.
pub const VACANT: u16 = 0xFFFF;

/// Moves the stored templates to pages 0, 1, 2 and up in their old order, zeroes the rest, sets the index to match, and
/// fills the table: each old page's new page, or FFFFh. The origins follow their templates. Settings, templates, index
/// and table are all that is lent; a reader's other memory is not looked at.
pub fn close_gaps(reader: &mut Reader, table: &mut [u16]) -> Answer {
    let refusal = refusal(reader, table.len());
    if refusal != 0 {
        return Answer::without_reply(refusal);
    }
    let old = reader.clone();
    reader.templates.fill(0);
    reader.index.fill(0);
    table.fill(VACANT);
    let stored = (0..old.capacity()).filter(|&page| old.stored(page));
    for (new_page, old_page) in stored.enumerate() {
        reader.template_mut(new_page).copy_from_slice(old.template(old_page));
        reader.index[new_page / 8] |= bit(new_page);
        table[old_page] = new_page as u16;
    }
    for origin in &mut reader.settings.origins {
        if let Some(page) = origin.page() {
            *origin = Origin(table[page]);
        }
    }
    Answer::without_reply(0)
}

/// Refusal 1 for the lengths of templates, index and table, then refusal 3 as in a call. There is no reply room, and so
/// no refusal 2.
fn refusal(reader: &Reader, table: usize) -> u8 {
    if !reader.library_fits() || table != reader.capacity() {
        1
    } else if !reader.legal() {
        3
    } else {
        0
    }
}
