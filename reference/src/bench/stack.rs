//! Stack: paint it, make the calls, and see how far down the paint is gone.

use super::scenarios::Scenario;
use crate::centre::{Lent, PlainState, Report, View};
use crate::compare::{Delivered, Engine, Moved, Sent, Step, Taken, World};
use std::hint::black_box;

/// The thread's whole stack, and how much of it is painted.
const STACK: usize = 1 << 20;
const PAINTED: usize = 1 << 17;

/// What isn't painted below the painting function's own frame: a leaf function may use 128
/// octets without saying so.
const GAP: usize = 256;

/// Paint goes on word by word, so depths are told to the word.
const PAINT: u64 = 0xA5A5_A5A5_A5A5_A5A5;
const WORD: usize = size_of::<u64>();

/// The most octets of stack that a call of the scenario uses, without what it takes to get
/// to the engine.
pub fn deepest(engine: &(dyn Engine + Sync), scenario: &Scenario) -> usize {
    let way_there = deepest_with_way(&Idle, scenario);
    deepest_with_way(engine, scenario).saturating_sub(way_there)
}

fn deepest_with_way(engine: &(dyn Engine + Sync), scenario: &Scenario) -> usize {
    let mut world = scenario.world.clone();
    std::thread::scope(|scope| {
        std::thread::Builder::new()
            .stack_size(STACK)
            .spawn_scoped(scope, move || {
                let steps = scenario.steps.iter();
                steps
                    .map(|step| {
                        used_by(|| {
                            black_box(play(engine, &mut world, step));
                        })
                    })
                    .max()
                    .unwrap_or(0)
            })
            .expect("a thread can be started")
            .join()
            .expect("no engine panics")
    })
}

#[inline(never)]
fn play(engine: &dyn Engine, world: &mut World, step: &Step) -> u8 {
    world.play(engine, step).number
}

/// The octets below this function's frame that the call writes to.
#[inline(never)]
fn used_by(mut call: impl FnMut()) -> usize {
    let here = 0u64;
    let top = black_box(&raw const here) as usize;
    let bottom = paint();
    call();
    let untouched = (bottom..top)
        .step_by(WORD)
        // SAFETY: the range was painted by this thread, on its own stack.
        .take_while(|&at| unsafe { (at as *const u64).read_volatile() } == PAINT)
        .count();
    assert!(untouched > 0, "the call went through all of the paint");
    top - bottom - WORD * untouched
}

/// Paints what lies below, and tells where the paint ends.
#[inline(never)]
fn paint() -> usize {
    let here = 0u64;
    let top = black_box(&raw const here) as usize - GAP;
    let bottom = top - PAINTED;
    for at in (bottom..top).step_by(WORD) {
        // SAFETY: the thread has far more stack, all of it mapped from the start, and
        // nothing lives below a running leaf function's frame and the gap.
        unsafe { (at as *mut u64).write_volatile(PAINT) };
    }
    bottom
}

/// An engine that does nothing, to see what the way to an engine takes.
struct Idle;

impl Engine for Idle {
    fn name(&self) -> &'static str {
        "idle"
    }

    fn open(&self, state: &PlainState, _: usize) -> Moved {
        Moved {
            number: 0,
            state: *state,
        }
    }

    fn close(&self, state: &PlainState, _: usize) -> Moved {
        Moved {
            number: 0,
            state: *state,
        }
    }

    fn take(&self, _: Lent<'_>, state: &PlainState, _: Sent<'_>, _: &mut [u8]) -> Taken {
        Taken {
            number: 0,
            consumed: 0,
            written: 0,
            state: *state,
        }
    }

    fn outcome(&self, _: Lent<'_>, _: &PlainState, _: &[u8], _: Report) -> u8 {
        0
    }

    fn deliver(
        &self,
        _: View<'_>,
        state: &PlainState,
        _: usize,
        _: u32,
        _: &mut [u8],
    ) -> Delivered {
        Delivered {
            number: 0,
            written: 0,
            state: *state,
        }
    }

    fn pick_number(&self, _: &[u8], _: &[u8], _: &PlainState, _: usize) -> u8 {
        0
    }

    fn pick_at(&self, _: &[u8], _: &[u8], _: &PlainState, _: usize) -> usize {
        0
    }

    fn pick_record(&self, _: &[u8], _: &[u8], _: &PlainState, _: usize, _: &mut [u8]) -> usize {
        0
    }
}
