//! Offers and answers of ends.

use crate::datagrams::fetched;
use crate::ends::End;
use crate::error::code;
use crate::params::{AgreedSection, Direction, Kind, Row, Section};
use crate::refused::{EndError, Place, done, done_at, keeps_mid};
use crate::sys;
use std::ptr;

/// The sections of a call, by their mids.
fn named(sections: &[Section<'_>]) -> Place {
    Place::Sections(sections.iter().map(|section| section.mid.into()).collect())
}

impl End {
    fn sections(&mut self, sections: &[Section<'_>]) -> Result<(), EndError> {
        sections.iter().try_for_each(|section| keeps_mid(section.mid, || named(sections)))?;
        let gathered = self.gather(sections);
        if gathered.is_err() {
            // An answer to no text is refused, and uses up what was gathered.
            // SAFETY: the handle is open, and no byte is read.
            unsafe { sys::jilqamur_end_answer(self.0.raw(), ptr::NonNull::dangling().as_ptr(), 0) };
        }
        gathered
    }

    fn gather(&mut self, sections: &[Section<'_>]) -> Result<(), EndError> {
        for section in sections {
            let (sends, receives) = section.direction.flow();
            self.repairs(section.repairs)?;
            // SAFETY: the handle is open, and pointers and lengths are those of one slice each.
            done(unsafe {
                sys::jilqamur_end_section(
                    self.0.raw(),
                    section.mid.as_ptr(),
                    section.mid.len(),
                    section.kind == Kind::Video,
                    sends,
                    receives,
                    section.ssrcs.as_ptr(),
                    section.ssrcs.len(),
                )
            })?;
        }
        Ok(())
    }

    pub(crate) fn repairs(&mut self, repairs: &[(u32, u32)]) -> Result<(), EndError> {
        for &(ssrc, repair) in repairs {
            // SAFETY: the handle is open.
            done(unsafe { sys::jilqamur_end_section_repair(self.0.raw(), ssrc, repair) })?;
        }
        Ok(())
    }

    pub(crate) fn text(&self) -> String {
        let text = fetched(|buffer, len, needed| {
            // SAFETY: the handle is open, and pointer and length are those of one slice.
            unsafe { sys::jilqamur_end_text(self.0.raw(), buffer, len, needed) }
        });
        String::from_utf8_lossy(&text).into_owned()
    }

    /// The text of an offer of these sections (RFC 3264 5); it is then pending.
    ///
    /// # Errors
    /// `MidNotKept` for a mid that has more than 16 bytes or other signs than letters, digits and `_`; `NotMade`,
    /// `OutOfRange` if the repairs of a section aren't sound, `OutOfTurn`, `NotCorresponding`,
    /// `NoCommonRow`, `NotWritable` or `Memory`; the end is unchanged.
    pub fn offer(&mut self, sections: &[Section<'_>]) -> Result<String, EndError> {
        self.sections(sections)?;
        // SAFETY: the handle is open.
        done_at(unsafe { sys::jilqamur_end_offer(self.0.raw()) }, || named(sections))?;
        Ok(self.text())
    }

    /// The text of the answer to an offer, of these sections (RFC 3264 6); it is then agreed.
    ///
    /// # Errors
    /// `MidNotKept`, `NotMade`, `OutOfRange` if the repairs of a section aren't sound, `TextUnreadable`, `OutOfTurn`,
    /// `NotMedia`,
    /// `NotCorresponding`, `Round`, `NoCommonRow`, `NotWritable` or `Memory`; the end is unchanged.
    pub fn answer(&mut self, offer: &str, sections: &[Section<'_>]) -> Result<String, EndError> {
        self.sections(sections)?;
        // SAFETY: the handle is open, and pointer and length are those of one slice.
        let answer = unsafe { sys::jilqamur_end_answer(self.0.raw(), offer.as_ptr(), offer.len()) };
        done_at(answer, || named(sections))?;
        Ok(self.text())
    }

    /// Takes the text of the answer to the pending offer (RFC 3264 7); it is then agreed.
    ///
    /// # Errors
    /// `NotMade`, `TextUnreadable`, `OutOfTurn`, `NotMedia`, `NotCorresponding`, `Round`, `NoCommonRow` or `Memory`;
    /// the end is unchanged.
    pub fn accept(&mut self, answer: &str) -> Result<(), EndError> {
        // SAFETY: the handle is open, and pointer and length are those of one slice.
        done(unsafe { sys::jilqamur_end_accept(self.0.raw(), answer.as_ptr(), answer.len()) })
    }

    /// Gives a pending offer up, and says whether there was one.
    pub fn withdraw(&mut self) -> bool {
        // SAFETY: the handle is open.
        unsafe { sys::jilqamur_end_withdraw(self.0.raw()) == code::OK }
    }

    /// The sections that were agreed on last, in the order of the texts.
    pub fn agreed_sections(&self) -> Vec<AgreedSection> {
        (0..).map_while(|index| self.agreed_section(index)).collect()
    }

    fn agreed_section(&self, index: usize) -> Option<AgreedSection> {
        let mut parts = sys::AgreedParts::default();
        let mut is_there = true;
        let mid = fetched(|buffer, len, needed| {
            // SAFETY: the handle is open, and pointer and length are those of one slice.
            let said =
                unsafe { sys::jilqamur_end_agreed_section(self.0.raw(), index, buffer, len, needed, &mut parts) };
            is_there = said != code::NOTHING;
            said
        });
        if !is_there {
            return None;
        }
        let direction = match (parts.sends, parts.receives) {
            (true, true) => Direction::SendRecv,
            (true, false) => Direction::SendOnly,
            (false, true) => Direction::RecvOnly,
            (false, false) => Direction::Inactive,
        };
        Some(AgreedSection {
            mid: String::from_utf8_lossy(&mid).into_owned(),
            kind: if parts.is_video { Kind::Video } else { Kind::Audio },
            direction,
            rows: (0..parts.rows).map(|place| self.agreed_row(index, place)).collect(),
            ssrcs: (0..parts.ssrcs).map(|place| self.agreed_ssrc(index, place)).collect(),
        })
    }

    fn agreed_row(&self, section: usize, index: usize) -> (String, Row) {
        let mut row = Row::default();
        let codec = fetched(|buffer, len, needed| {
            // SAFETY: the handle is open, and pointer and length are those of one slice.
            unsafe { sys::jilqamur_end_agreed_row(self.0.raw(), section, index, buffer, len, needed, &mut row) }
        });
        (String::from_utf8_lossy(&codec).into_owned(), row)
    }

    fn agreed_ssrc(&self, section: usize, index: usize) -> u32 {
        let mut ssrc = 0;
        // SAFETY: the handle is open.
        unsafe { sys::jilqamur_end_agreed_ssrc(self.0.raw(), section, index, &mut ssrc) };
        ssrc
    }
}
