//! Events of a script, runs of them, and their tally (01, "Scripts and the printout"; 02, F-5).

use crate::calls::{Answer, Done};
use crate::label::Split;
use crate::network::Network;
use crate::script;

/// "a small tally of calls, one for each event, refused ones too, and of the highest air count after any of them".
#[derive(Clone, Copy, PartialEq, Eq, Default, Debug)]
pub struct Tally {
    pub calls: u32,
    pub highest: u8,
}

/// What the line of an event tells: the answer, "the refusal or outcome number, 0 if neither", the packets sent, "0 if refused", the
/// packets "in the air after it", and the hops, "0 but for an accepted Trace".
#[derive(Clone, Copy, PartialEq, Eq, Debug)]
pub struct Line {
    pub answer: u32,
    pub sent: u8,
    pub in_air: u8,
    pub hops: u8,
}

impl Line {
    pub fn of(answer: Answer, in_air: u8) -> Line {
        let done = answer.unwrap_or_else(|number| Done { outcome: number, sent: 0, hops: 0 });
        Line { answer: done.outcome, sent: done.sent as u8, in_air, hops: done.hops as u8 }
    }

    /// In one number, as include/srp.h has it: the answer in the lowest 32 bits, and 8 bits each for the others.
    pub fn packed(self) -> u64 {
        u64::from(self.answer) | u64::from(self.sent) << 32 | u64::from(self.in_air) << 40 | u64::from(self.hops) << 48
    }
}

impl Network {
    /// An event of a script on memory in range: the call of its kind.
    pub fn event(&mut self, kind: u8, a: u8, b: u8) -> Answer {
        self.event_by(Split::Simplest, kind, a, b)
    }

    pub fn event_by(&mut self, split: Split, kind: u8, a: u8, b: u8) -> Answer {
        let (a, b) = (usize::from(a), usize::from(b));
        match kind {
            script::UP => self.up(a, b),
            script::DOWN => self.down(a, b),
            script::SOLICIT => self.solicit(a, b),
            script::GIVE_UP => self.give_up(a),
            script::EXPIRE => self.expire(a, b),
            script::DELIVER => self.deliver_by(split, a),
            script::LOSE => self.lose(a),
            script::DUPLICATE => self.duplicate(a),
            script::TRACE => self.trace(a, b),
            _ => Err(11),
        }
    }

    /// Events one after the other on memory in range, each with the line that is told of it.
    pub fn run(&mut self, kinds: &[u8], operands: &[u8], mut tell: impl FnMut(usize, Line)) -> Tally {
        let mut tally = Tally::default();
        for (index, (&kind, pair)) in kinds.iter().zip(operands.chunks_exact(2)).enumerate() {
            let answer = self.event(kind, pair[0], pair[1]);
            tally.calls += 1;
            tally.highest = tally.highest.max(self.in_air);
            tell(index, Line::of(answer, self.in_air));
        }
        tally
    }
}
