//! One number over all that an engine does, to show that nothing changed between two builds.

use super::engine::Engine;
use super::history::History;
use super::world::{Answer, World};
use crate::centre::PlainState;

/// A number that depends on every octet it was given and on their order. It tells builds
/// apart; it isn't meant to withstand anyone.
#[derive(Clone, Debug)]
pub struct Digest(u64);

impl Default for Digest {
    fn default() -> Self {
        Digest(0xCBF2_9CE4_8422_2325)
    }
}

impl Digest {
    pub fn value(&self) -> u64 {
        self.0
    }

    fn number(&mut self, number: u64) {
        self.0 = mixed(self.0, number);
    }

    /// Four words at a time, since a table is long.
    fn octets(&mut self, octets: &[u8]) {
        let mut lanes = [0, 1, 2, 3].map(|lane| mixed(self.0, lane));
        let (chunks, rest) = octets.as_chunks::<32>();
        for chunk in chunks {
            for (lane, word) in lanes.iter_mut().zip(chunk.as_chunks().0) {
                *lane = mixed(*lane, u64::from_le_bytes(*word));
            }
        }
        lanes.into_iter().for_each(|lane| self.number(lane));
        rest.iter().for_each(|&octet| self.number(octet.into()));
    }

    /// The state as it is, as comparisons take it.
    fn state(&mut self, state: &PlainState) {
        self.octets(&state.kinds);
        self.octets(&state.accounts);
        let numbers = [&state.lasts[..], &state.receipts, &state.sequences];
        numbers
            .into_iter()
            .flatten()
            .for_each(|&number| self.number(number.into()));
    }

    fn answer(&mut self, answer: &Answer) {
        let Answer {
            number,
            consumed,
            written,
            picked,
        } = *answer;
        self.number(number.into());
        for count in [consumed, written, picked] {
            self.number(count as u64);
        }
    }

    /// Takes in, of each step: the answer, the state, the response space and the table.
    pub fn play(&mut self, engine: &dyn Engine, history: &History) {
        let mut world = World::new(history);
        for step in &history.steps {
            world.clear_space();
            let answer = world.play(engine, step);
            self.answer(&answer);
            self.state(&world.state);
            self.octets(world.space());
            self.octets(world.table_and_behind());
        }
    }
}

fn mixed(digest: u64, number: u64) -> u64 {
    (digest.rotate_left(29) ^ number).wrapping_mul(0x9E37_79B9_7F4A_7C15)
}
