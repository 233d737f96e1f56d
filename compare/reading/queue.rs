//! Calls of our side that wait to be sent together, and the answers expected.

use crate::lent::{Call, Lent};
use crate::parts::Differences;
use crate::{ours, report};
use common::bridge;
use model::Answer;

/// Bytes of calls that may wait; without the bridge nothing is gained by waiting.
pub const BATCH: usize = if cfg!(bridge) { bridge::BATCH } else { 0 };
/// Bytes of a request before its letter.
pub const HEAD: usize = 32;
/// Bits that all junk has, so that no byte of it is zero.
pub const JUNK: u32 = 0x8101_0101;

#[derive(Default)]
pub struct Queue {
    pub calls: u64,
    lent: Lent,
    waiting: Vec<Call>,
    expected: Vec<Answer>,
    /// Bytes of what waits.
    bytes: usize,
}

impl Queue {
    /// What our side says to a call may be told only with `finish`.
    pub fn put(&mut self, call: Call, expected: Answer, differences: &mut Differences) {
        self.calls += 1;
        let bytes = call.letter.len() + HEAD;
        if self.bytes + bytes > BATCH {
            self.finish(differences);
        }
        self.bytes += bytes;
        self.waiting.push(call);
        self.expected.push(expected);
    }

    pub fn finish(&mut self, differences: &mut Differences) {
        ours::send(&self.waiting);
        let expected = std::mem::take(&mut self.expected);
        for (call, expected) in std::mem::take(&mut self.waiting).iter().zip(&expected) {
            if let Err(fault) = self.lent.made(call, expected) {
                differences.found(call.number, || report::fault(call, expected, &fault));
            }
        }
        self.bytes = 0;
    }
}
