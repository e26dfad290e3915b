//! What is sent by chance about origins, by document 02's request [7].

use crate::cases::author::{bytes_events, Author, Event};
use crate::reader::*;

impl Author<'_> {
    /// A command that origins matter to.
    pub fn origin_command(&mut self) -> Vec<u8> {
        let code = self.chance.pick(&[STORE, LOAD_CHAR, DOWN_CHAR, DELET_CHAR, DELET_CHAR, DELET_CHAR, EMPTY]);
        self.command(code)
    }

    /// The origin of a buffer; a stored page if it has none.
    pub fn origin(&mut self) -> u16 {
        let Origin(number) = self.chance.pick(&self.reader.settings.origins);
        if Origin(number) == NONE {
            self.stored_page()
        } else {
            number
        }
    }

    /// Page and N of a delete.
    pub fn deleted_pages(&mut self) -> [u16; 2] {
        if self.chance.percent(50) {
            let origin = self.origin();
            return self.pages_about(origin);
        }
        let page = self.page();
        [page, self.count_from(page)]
    }

    /// Page and N of a delete that reaches a page, at either end or alone, or just misses it.
    fn pages_about(&mut self, page: u16) -> [u16; 2] {
        let few = self.chance.within(1, 3) as u16;
        let [before, next] = [page.saturating_sub(few), page.wrapping_add(1)];
        let misses = [[page, 0], [next, few], [next, 0], [before, page - before]];
        let reaches = [[page, 1], [page, few + 1], [before, page - before + 1], [before, page - before + 2]];
        if self.chance.percent(40) {
            self.chance.pick(&misses)
        } else {
            self.chance.pick(&reaches)
        }
    }

    /// A stored page is loaded, at times into both buffers or stored under another number too; it or pages about it are
    /// deleted, or all are; and the buffers are uploaded.
    pub fn leaver(&mut self) -> Vec<Event> {
        let page = self.stored_page();
        let [[high, low], [other_high, other_low]] = [page, self.page()].map(u16::to_be_bytes);
        let (one, other) = self.chance.pick(&[(1, 2), (2, 1)]);
        let mut contents = vec![vec![LOAD_CHAR, one, high, low]];
        match self.chance.below(4) {
            0 => contents.push(vec![LOAD_CHAR, other, high, low]),
            1 => contents.push(vec![LOAD_CHAR, other, other_high, other_low]),
            2 => contents.push(vec![STORE, one, other_high, other_low]),
            _ => {}
        }
        if self.chance.percent(25) {
            contents.push(vec![EMPTY]);
        } else {
            let pages = self.pages_about(page).map(u16::to_be_bytes);
            contents.push([&[DELET_CHAR], &pages.concat()[..]].concat());
        }
        contents.extend([vec![UP_CHAR, one], vec![UP_CHAR, other]]);
        bytes_events(contents.iter().map(|content| self.packet(COMMAND, content)).collect())
    }
}
