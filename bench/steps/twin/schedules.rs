//! Schedules: events in four characters each, and such as are drawn by chance.

use crate::bank::{Bank, Step};
use crate::model::Model;
use crate::world::{Event, Report, World};

fn digit(byte: u8) -> u16 {
    u16::from(byte - b'0')
}

/// The event in four characters: its kind, a class, and the number of what it is about, in base 64.
/// Where it is about two stations, their low digits, and both high ones in a digit.
pub fn event(word: &[u8]) -> Event {
    let number = digit(word[2]) + 64 * digit(word[3]);
    let from = digit(word[1]) + 64 * (digit(word[3]) % 8);
    let to = digit(word[2]) + 64 * (digit(word[3]) / 8);
    match word[0] {
        b'm' => Event::Mail(number as usize),
        b't' => Event::Try(digit(word[1]), number),
        b's' => Event::Bank(Step::Serve(number)),
        b'd' => Event::Bank(Step::Deliver(number as usize)),
        b'p' => Event::Bank(Step::Pass(from, to)),
        _ => Event::Bank(Step::Ask(from, to)),
    }
}

fn write_event(schedule: &mut String, event: Event) {
    let one = |class, number| [class, number % 64, number / 64];
    let two = |from, to| [from % 64, to % 64, from / 64 + to / 64 * 8];
    let (kind, digits) = match event {
        Event::Mail(place) => ('m', one(0, place as u16)),
        Event::Try(class, inter) => ('t', one(class, inter)),
        Event::Bank(Step::Serve(station)) => ('s', one(0, station)),
        Event::Bank(Step::Deliver(place)) => ('d', one(0, place as u16)),
        Event::Bank(Step::Pass(from, to)) => ('p', two(from, to)),
        Event::Bank(Step::Ask(from, to)) => ('a', two(from, to)),
    };
    schedule.push(kind);
    schedule.extend(digits.map(|it| (b'0' + it as u8) as char));
}

fn draw<B: Bank>(model: &Model, world: &World<'_, B>, word: usize) -> Event {
    let inters = model.interactions.len();
    match (word % 4, word / 4) {
        (2, rest) => {
            let inter = rest % inters;
            Event::Try(model.interactions[inter].class, inter as u16)
        }
        (3, rest) => Event::Bank(world.bank().step_of(model, rest)),
        (_, rest) => Event::Mail(rest % world.mails().max(1)),
    }
}

/// A schedule that is drawn, and how many messages were in flight on average.
pub fn record<B: Bank>(model: &Model, seed: u64, count: usize, busy: bool) -> (String, f64) {
    let mut world: World<'_, B> = World::new(model);
    let mut state = seed;
    let mut schedule = String::new();
    let mut mails = 0;
    while schedule.len() < 4 * count {
        state = state.wrapping_mul(6364136223846793005).wrapping_add(1442695040888963407);
        let event = draw(model, &world, (state >> 33) as usize);
        let flying = world.mails();
        let mut report = Report::default();
        world.step(event, &mut report);
        if report.idle == 0 || !busy {
            write_event(&mut schedule, event);
            mails += flying;
        }
    }
    (schedule, mails as f64 / count as f64)
}

/// The line of an event, in a schedule that `bipr steps` reads.
pub fn line(model: &Model, event: Event) -> String {
    let name = |station: u16| &model.interactions[model.stations[station as usize] as usize].name;
    match event {
        Event::Mail(place) => format!("mail {place}"),
        Event::Try(class, inter) => {
            let inter = &model.interactions[inter as usize].name;
            format!("try {} {inter}", model.class_names[class as usize])
        }
        Event::Bank(Step::Deliver(place)) => format!("deliver {place}"),
        Event::Bank(Step::Serve(station)) => format!("serve {}", name(station)),
        Event::Bank(Step::Pass(from, to)) => format!("pass {} {}", name(from), name(to)),
        Event::Bank(Step::Ask(from, to)) => format!("ask {} {}", name(from), name(to)),
    }
}
