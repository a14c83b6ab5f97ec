//! What only bent readings of W2 and W6 ask for, and what they lose where a window begins.

use crate::fields::UNRECOGNISED;
use crate::windows::{Phase, Session};
use crate::windows_mail::Head;
use crate::wrong_windows::Bend;

#[derive(Clone, Default)]
pub struct Past {
    /// All window lengths together.
    pub shown: usize,
    /// How many bytes the next window shows again.
    pub again: u64,
    /// The literal's or the sized body's whole size.
    pub size: u64,
    /// Up to where a body is listed in pieces.
    pub listed: usize,
    /// The slots of the first table lent.
    pub slots: Option<usize>,
    /// The first of two bytes, taken alone.
    pub held: Option<u8>,
    /// Where the literal's rest began that is skipped in pieces.
    pub skipped: Option<usize>,
    /// Where the line stands that was peeked at last.
    pub peeked: Option<usize>,
    /// The byte taken last.
    pub last: Option<u8>,
}

impl Session {
    pub(crate) fn forget(&mut self, window: &[u8], table: &mut [u32]) {
        match self.bend {
            Bend::FlagTrue => self.may = true,
            Bend::FlagFalse => self.may = false,
            Bend::StrictLost if self.past.shown > window.len() => self.strict = false,
            Bend::HeadAnew => self.head = Head::default(),
            Bend::SeenLost => self.head.seen = false,
            Bend::EncodingLost => self.head.encoding = 0,
            Bend::UnrecognisedLost if self.head.encoding == UNRECOGNISED => self.head.encoding = 0,
            Bend::SuppliedLost => self.head.boundary = None,
            Bend::CountAnew => self.count = 0,
            Bend::RestWindow => self.rest = self.rest.map(|_| self.past.size),
            Bend::RestShown => self.rest = self.rest.map(|rest| rest.saturating_sub(self.past.again)),
            Bend::EmptyAnew if !window.is_empty() => {}
            Bend::PhaseLost | Bend::EmptyAnew => *self = self.anew(),
            _ => self.forget_more(table),
        }
    }

    fn forget_more(&mut self, table: &mut [u32]) {
        let Some(last) = self.open.len().checked_sub(1) else {
            return self.forget_sized(table);
        };
        match self.bend {
            Bend::OutermostLost => self.open[0] = self.open[last].clone(),
            Bend::InnerLost => self.open = vec![self.open[0].clone(); last + 1],
            Bend::LevelLost if last > 1 => drop(self.open.drain(1..last)),
            _ => {}
        }
    }

    fn forget_sized(&mut self, table: &mut [u32]) {
        let began = match self.phase {
            Phase::Sized { began, .. } => began,
            Phase::Offered { .. } if self.is(Bend::OfferedLost) => {
                self.phase = Phase::Offered { size: 0 };
                return;
            }
            _ => return,
        };
        match self.bend {
            Bend::SizedWindow => self.phase = Phase::Sized { began, left: self.past.size },
            Bend::StartAgain => {
                if let Some(slot) = table.chunks_exact_mut(4).nth(self.count) {
                    slot.copy_from_slice(&[2, began as u32, 0, 0]);
                    self.count += 1;
                }
            }
            _ => {}
        }
    }
}
