//! The arguments of an input: see `../../fuzz.h`.

use capvet::{Limits, MessageBuf, NotAccepted, VetError};
use std::io::{self, Read};

const ARGUMENTS: usize = 16;
const MOST_AMPLIFIED: u64 = 1 << 16;

/// What the bytes are vetted as.
#[derive(Clone, Copy, PartialEq, Eq)]
pub enum Form {
    Whole,
    Prefix,
    Words,
}

/// The arguments of an input, and its bytes.
pub struct Input<'b> {
    pub limits: Limits,
    pub form: Form,
    pub slack: usize,
    pub bytes: &'b [u8],
    state: u64,
}

impl<'b> Input<'b> {
    /// The parts of an input, if it has arguments.
    pub fn of(data: &'b [u8]) -> Option<Self> {
        let bytes = data.get(ARGUMENTS..)?;
        let flag = |bit: u32| data[0] >> bit & 1 == 1;
        let limit = |range, otherwise| match number(&data[range]) {
            0 => otherwise,
            more => more - 1,
        };
        let charge = limit(8..12, Limits::DEFAULT.charge());
        let charge = charge.min(if flag(2) { MOST_AMPLIFIED } else { u64::MAX });
        let limits = Limits::new(
            limit(4..8, Limits::DEFAULT.message_words()).min(Limits::MAX_MESSAGE_WORDS),
            charge.min(Limits::MAX_CHARGE),
            limit(2..4, 64).min(Limits::MAX_DEPTH.into()) as u32,
        );
        let limits = limits
            .expect("no number is above its maximum")
            .with_allow_nonstrict(flag(1))
            .with_allow_amplified(flag(2));
        let form = match (flag(0), flag(3)) {
            (_, true) => Form::Words,
            (true, false) => Form::Prefix,
            (false, false) => Form::Whole,
        };
        Some(Self {
            limits,
            form,
            slack: usize::from(data[1] & 7),
            bytes,
            state: number(&data[12..16]),
        })
    }

    /// The verdict.
    pub fn vet(&self, limits: Limits) -> Result<MessageBuf, VetError> {
        match self.form {
            Form::Whole => Ok(capvet::vet(self.bytes, limits)?.into()),
            Form::Prefix => Ok(capvet::vet_prefix(self.bytes, limits)?.0.into()),
            Form::Words => capvet::vet_words(self.bytes, limits).map_err(NotAccepted::into),
        }
    }

    /// A number below `below`, or 0 if that is 0.
    pub fn choose(&mut self, below: usize) -> usize {
        self.state = self.state.wrapping_add(0x9e37_79b9_7f4a_7c15);
        let mixed = (self.state ^ self.state >> 30).wrapping_mul(0xbf58_476d_1ce4_e5b9);
        let mixed = (mixed ^ mixed >> 27).wrapping_mul(0x94d0_49bb_1331_11eb);
        (mixed ^ mixed >> 31)
            .checked_rem(below as u64)
            .unwrap_or_default() as usize
    }
}

fn number(bytes: &[u8]) -> u64 {
    bytes
        .iter()
        .rev()
        .fold(0, |number, byte| number << 8 | u64::from(*byte))
}

/// A reader that gives its bytes in pieces of any size. It is interrupted now and then, and sometimes not ready.
pub struct Pieces<'i, 'b> {
    pub input: &'i mut Input<'b>,
    pub rest: &'i [u8],
}

impl Read for Pieces<'_, '_> {
    fn read(&mut self, buffer: &mut [u8]) -> io::Result<usize> {
        match self.input.choose(16) {
            0 => return Err(io::ErrorKind::Interrupted.into()),
            1 => return Err(io::ErrorKind::WouldBlock.into()),
            _ => {}
        }
        let most = buffer.len().min(self.rest.len());
        let count = most.min(1 + self.input.choose(most));
        let (piece, rest) = self.rest.split_at(count);
        buffer[..count].copy_from_slice(piece);
        self.rest = rest;
        Ok(count)
    }
}
