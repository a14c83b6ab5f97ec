//! Document 02's W6: with the strict setting on, a line that is read or peeked at refuses with 11 if
//! its LF has no CR directly before it in the line. Bent readings have it otherwise.

use crate::windows::{Phase, Step, Walk};
use crate::wrong_windows::Bend;

/// A bare line whose 11 a bent reading puts off: its place, and the table's next slot before it.
pub struct Late {
    place: usize,
    count: usize,
    slot: Vec<u32>,
}

impl<'a> Walk<'a> {
    /// The next line, whole.
    pub(crate) fn peek(&mut self) -> Step<&'a [u8]> {
        let line = self.next_line();
        let strict = self.session.strict;
        if strict && line.is_err() && self.is(Bend::UnfinishedBare) && !self.left().is_empty() {
            return Err((11, self.at()));
        }
        let line = line?;
        if strict && self.is_bare(line) && self.is_tested(line) {
            self.refuse_bare(line)?;
        }
        Ok(line)
    }

    fn is_bare(&self, line: &[u8]) -> bool {
        match self.session.bend {
            Bend::ReturnAnywhere => !line.contains(&b'\r'),
            Bend::ReturnBefore if line == b"\n" => self.byte_before() != Some(b'\r'),
            _ => !line.ends_with(b"\r\n"),
        }
    }

    fn byte_before(&self) -> Option<u8> {
        self.window[..self.pos].last().copied().or(self.session.past.last)
    }

    fn is_tested(&self, line: &[u8]) -> bool {
        let phase = self.session.phase;
        match self.session.bend {
            Bend::OutsideUntested => matches!(phase, Phase::Head | Phase::Text | Phase::Skipping),
            Bend::HeaderUntested => phase != Phase::Head,
            Bend::TextUntested => phase != Phase::Text,
            Bend::DotUntested => phase != Phase::Text || line != b".\n",
            Bend::SkippedUntested => phase != Phase::Skipping,
            Bend::PeekedUntested => {
                !matches!(phase, Phase::Offered { .. }) && self.session.past.peeked != Some(self.at())
            }
            _ => true,
        }
    }

    fn refuse_bare(&mut self, line: &[u8]) -> Step<()> {
        let place = if self.is(Bend::ElevenFeed) { self.at() + line.len() - 1 } else { self.at() };
        if self.ahead_of_eleven().is_none() {
            return Err((11, place));
        }
        let count = self.session.count;
        let slot = self.table.iter().skip(count * 4).take(4).copied().collect();
        self.late = Some(Late { place, count, slot });
        Ok(())
    }

    /// The result that comes before 11 in a bent reading.
    fn ahead_of_eleven(&self) -> Option<u32> {
        match self.session.bend {
            Bend::ByeFirst | Bend::TlsFirst => Some(0),
            Bend::ThreeFirst => Some(3),
            Bend::FourFirst => Some(4),
            Bend::FiveFirst => Some(5),
            Bend::TenFirst | Bend::ElevenListed => Some(10),
            _ => None,
        }
    }

    /// How a step went, once 11 is given that was put off in it.
    pub(crate) fn overdue(&mut self, went: Step<()>) -> Step<()> {
        let Some(late) = self.late.take() else {
            return went;
        };
        if went.is_err_and(|(result, _)| Some(result) == self.ahead_of_eleven()) {
            return went;
        }
        if !self.is(Bend::ElevenListed) {
            self.session.count = late.count;
            self.table.iter_mut().skip(late.count * 4).zip(late.slot).for_each(|(number, kept)| *number = kept);
        }
        Err((11, late.place))
    }

    /// Preambles, contents, sized bodies, a literal's rest and two bytes are no lines and spared: only
    /// bent readings test them.
    pub(crate) fn spared(&self, bytes: &[u8]) -> Step<()> {
        let tested = match self.session.phase {
            Phase::Preamble { .. } => self.is(Bend::StrictPreamble),
            Phase::Content { .. } => self.is(Bend::StrictContent),
            Phase::Sized { .. } => self.is(Bend::StrictSized),
            Phase::Skipping => self.is(Bend::StrictRest),
            _ => self.is(Bend::StrictTwo),
        };
        let bare = |line: &[u8]| line.ends_with(b"\n") && !line.ends_with(b"\r\n");
        if tested && self.session.strict && bytes.split_inclusive(|&b| b == b'\n').any(bare) {
            return Err((11, self.at()));
        }
        Ok(())
    }
}
