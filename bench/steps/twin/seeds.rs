//! Events by chance, from the words of a PCG generator.

use crate::bank::{Bank, Step};
use crate::model::Model;
use crate::world::{Event, Report, World};

/// PCG XSH RR: 32 bits a word, 64 bits of state.
struct Words {
    state: u64,
    increment: u64,
}

impl Words {
    fn new(seed: u64, stream: u64) -> Words {
        let increment = stream << 1 | 1;
        let mut words = Words { state: seed.wrapping_add(increment), increment };
        words.step();
        words
    }

    fn step(&mut self) {
        self.state = self.state.wrapping_mul(6364136223846793005).wrapping_add(self.increment);
    }

    fn next(&mut self) -> u32 {
        let state = self.state;
        self.step();
        (((state >> 18 ^ state) >> 27) as u32).rotate_right((state >> 59) as u32)
    }
}

/// The event of a word, in such a world.
fn draw<B: Bank>(model: &Model, world: &World<'_, B>, word: u32) -> Event {
    let rest = word as usize / 4;
    let inters = model.interactions.len();
    match word % 4 {
        2 if inters == 0 => Event::Mail(0),
        2 => {
            let inter = rest % inters;
            Event::Try(model.interactions[inter].class, inter as u16)
        }
        3 => Event::Bank(draw_step(model.stations.len(), world.bank().in_flight(), rest)),
        _ => Event::Mail(rest % world.mails().max(1)),
    }
}

/// The step of a bank with so many stations, and so many things in flight inside.
fn draw_step(stations: usize, mails: usize, number: usize) -> Step {
    if stations == 0 {
        return Step::Deliver(0);
    }
    let rest = number / 4;
    let (one, other) = ((rest % stations) as u16, (rest / stations % stations) as u16);
    match number % 4 {
        0 => Step::Deliver(rest % mails.max(1)),
        1 => Step::Serve(one),
        2 => Step::Pass(one, other),
        _ => Step::Ask(one, other),
    }
}

/// The world to which so many events of a seed lead, and their report. Each event is told first.
pub fn run<B: Bank>(
    model: &Model,
    seed: u64,
    events: u32,
    told: impl Fn(Event),
) -> (World<'_, B>, Report) {
    let mut world = World::new(model);
    let mut report = Report::default();
    let mut words = Words::new(seed, 1);
    for _ in 0..events {
        let event = draw(model, &world, words.next());
        told(event);
        world.step(event, &mut report);
    }
    (world, report)
}
