//! The plain twin of the timing program, on std alone: `MODEL SCHEDULE ROUNDS RESOLVER`, which
//! prints the same; the resolver is `central`, `ring` or `forks`, and stands last in what follows
//! too. `record MODEL SEED COUNT` draws a schedule of so many events, and prints it: half of them
//! hand on one of the messages in flight, the others try an interaction or are a step of the bank.
//! `record-busy` leaves those out that do nothing.
//!
//! `explore MODEL SEEDS EVENTS` answers what `bipr explore` does. `seeds`, with the same words, says
//! what the events of each seed come to. `lines MODEL SEED EVENTS` prints the events of a seed, as
//! `bipr steps` reads them.

mod bank;
mod model;
mod run;
mod schedules;
mod seeds;
mod world;

use bank::{Bank, Central, Forks, Ring};
use model::Model;
use schedules::{event, line, record};
use world::{Event, Report, World};

fn mix(sum: u64, number: u64) -> u64 {
    (sum ^ number).wrapping_mul(1_099_511_628_211)
}

/// A sum over the trace of a world.
fn sum_of<B>(world: &World<'_, B>) -> u64 {
    let mut sum = 0;
    for grant in &world.trace {
        sum = mix(sum, u64::from(grant.inter));
        for want in grant.wants.iter() {
            sum = mix(mix(sum, u64::from(want.comp)), want.number);
            sum = mix(sum, if want.moved { 1 } else { 2 });
        }
    }
    sum
}

/// What a round comes to.
struct Outcome {
    report: Report,
    mails: usize,
    sum: u64,
}

impl Outcome {
    fn of<B: Bank>(world: &World<'_, B>, report: Report) -> Outcome {
        Outcome { report, mails: world.mails(), sum: sum_of(world) }
    }

    fn say(&self) {
        let Report { events, grants, refusals, idle, skipped, lost } = self.report;
        print!("events {events} grants {grants} refusals {refusals} idle {idle} ");
        println!("skipped {skipped} lost {lost}");
        println!("in flight {} sum {}", self.mails, self.sum);
    }
}

fn time<B: Bank>(model: &Model, events: &[Event], rounds: u32) {
    let mut last = None;
    for _ in 0..rounds {
        let mut world: World<'_, B> = World::new(model);
        let report = world.run(events);
        last = Some(Outcome::of(&world, report));
    }
    last.expect("a round").say();
}

fn tell_seeds<B: Bank>(model: &Model, seeds: u32, events: u32) {
    for seed in 1..=seeds {
        let (world, report) = seeds::run::<B>(model, u64::from(seed), events, |_| {});
        Outcome::of(&world, report).say();
    }
}

fn explore<B: Bank>(model: &Model, seeds: u32, events: u32) {
    for seed in 1..=seeds {
        let (world, _) = seeds::run::<B>(model, u64::from(seed), events, |_| {});
        if !run::is_run(model, &world.trace) {
            println!("seed {seed}: not a run");
            return;
        }
    }
    println!("seeds {seeds} runs {seeds}");
}

fn carry_out<B: Bank>(words: &[&str]) {
    match *words {
        [verb @ ("record" | "record-busy"), model, seed, count] => {
            let (seed, count) = (seed.parse().expect("a seed"), count.parse().expect("a count"));
            let busy = verb == "record-busy";
            let (schedule, mails) = record::<B>(&Model::read(model), seed, count, busy);
            println!("{schedule} {mails:.1}");
        }
        [verb @ ("explore" | "seeds"), model, seeds, events] => {
            let model = Model::read(model);
            let count = seeds.parse().expect("a count");
            let events = events.parse().expect("a count");
            match verb {
                "seeds" => tell_seeds::<B>(&model, count, events),
                _ => explore::<B>(&model, count, events),
            }
        }
        ["lines", model, seed, events] => {
            let model = Model::read(model);
            let (seed, events) = (seed.parse().expect("a seed"), events.parse().expect("a count"));
            seeds::run::<B>(&model, seed, events, |event| println!("{}", line(&model, event)));
        }
        [model, schedule, rounds] => {
            let events: Vec<Event> = schedule.as_bytes().chunks(4).map(event).collect();
            time::<B>(&Model::read(model), &events, rounds.parse().expect("a count"));
        }
        _ => panic!("usage: MODEL SCHEDULE ROUNDS RESOLVER"),
    }
}

fn main() {
    let words: Vec<String> = std::env::args().skip(1).collect();
    match words.iter().map(String::as_str).collect::<Vec<_>>()[..] {
        [ref words @ .., "central"] => carry_out::<Central>(words),
        [ref words @ .., "ring"] => carry_out::<Ring>(words),
        [ref words @ .., "forks"] => carry_out::<Forks>(words),
        _ => panic!("usage: MODEL SCHEDULE ROUNDS RESOLVER"),
    }
}
