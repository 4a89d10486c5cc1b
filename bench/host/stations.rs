//! The stations of the twin: of a ring, or with forks.

use crate::bank::{Table, touched};
use crate::model::Model;
use crate::world::{Decision, Reply, Request, Want};
use crate::{Rest, Shared, ToClass};
use std::collections::VecDeque;
use std::sync::mpsc::{Receiver, Sender};

/// What a station hears.
pub enum ToStation {
    Asked(Request),
    Token(Table),
    /// From this station.
    Ask(u16),
    Fork(u16, Numbers),
}

/// The used number of each component that both stations of a fork touch.
type Numbers = Vec<(u16, u64)>;

/// What a station has of what it shares with another one.
struct Side {
    other: u16,
    fork: Option<Numbers>,
    is_clean: bool,
    has_token: bool,
}

/// What decides for a station.
enum Desk {
    /// In a ring: the token, while it is here, and the next station.
    Ring(Option<Table>, u16),
    Forks(Table, Vec<Side>),
}

pub struct Seat {
    number: u16,
    class: u16,
    waiting: VecDeque<Request>,
    desk: Desk,
}

impl Seat {
    /// The stations of a model by the name of a resolver: none with one table for all.
    pub fn all(model: &Model, resolver: &str) -> Vec<Seat> {
        let desk: fn(&Model, u16) -> Desk = match resolver {
            "central" => return Vec::new(),
            "ring" => ring_desk,
            "forks" => fork_desk,
            _ => panic!("no such resolver"),
        };
        let seat = |(number, inter): (usize, &u16)| Seat {
            number: number as u16,
            class: model.interactions[*inter as usize].class,
            waiting: VecDeque::new(),
            desk: desk(model, number as u16),
        };
        model.stations.iter().enumerate().map(seat).collect()
    }

    fn hear(&mut self, message: ToStation) {
        match (message, &mut self.desk) {
            (ToStation::Asked(request), _) => self.waiting.push_back(request),
            (ToStation::Token(table), Desk::Ring(token, _)) => *token = Some(table),
            (ToStation::Ask(other), Desk::Forks(_, sides)) => {
                side_with(sides, other).has_token = true;
            }
            (ToStation::Fork(other, numbers), Desk::Forks(_, sides)) => {
                let side = side_with(sides, other);
                side.fork = Some(numbers);
                side.is_clean = true;
            }
            _ => unreachable!("no such message"),
        }
    }

    /// Decides on the oldest open request, where that can be.
    fn decide(&mut self) -> Option<(Request, Decision)> {
        let wants = &self.waiting.front()?.wants;
        let decision = match &mut self.desk {
            Desk::Ring(token, _) => token.as_mut()?.decide(wants)?,
            Desk::Forks(table, sides) => decide_by_forks(table, sides, wants)?,
        };
        Some((self.waiting.pop_front()?, decision))
    }

    /// Hands on what may go, and asks for what is wanted.
    fn share(&mut self, stations: &[Sender<ToStation>]) -> bool {
        let is_asked = !self.waiting.is_empty();
        match &mut self.desk {
            Desk::Ring(token, next) => match token.take() {
                Some(table) => {
                    let _ = stations[*next as usize].send(ToStation::Token(table));
                    true
                }
                None => false,
            },
            Desk::Forks(_, sides) => {
                let sent = |side: &mut Side| side.share(self.number, is_asked, stations);
                sides.iter_mut().map(sent).fold(false, |any, one| any | one)
            }
        }
    }
}

impl Side {
    fn share(&mut self, own: u16, is_asked: bool, stations: &[Sender<ToStation>]) -> bool {
        if !self.has_token {
            return false;
        }
        let message = match self.fork.take_if(|_| !self.is_clean) {
            Some(numbers) => ToStation::Fork(own, numbers),
            None if is_asked && self.fork.is_none() => {
                self.has_token = false;
                ToStation::Ask(own)
            }
            None => return false,
        };
        let _ = stations[self.other as usize].send(message);
        true
    }
}

fn ring_desk(model: &Model, number: u16) -> Desk {
    let next = (number + 1) % model.stations.len() as u16;
    Desk::Ring((number == 0).then(|| Table::new(model, model.tabled)), next)
}

fn fork_desk(model: &Model, number: u16) -> Desk {
    let own = model.stations[number as usize];
    let conflicts = model.interactions[own as usize].conflicts;
    let mut sides = Vec::new();
    for (other, inter) in model.stations.iter().enumerate() {
        let other = other as u16;
        if other == number || conflicts >> inter & 1 == 0 {
            continue;
        }
        let both = touched(model, own) & touched(model, *inter);
        let comps = (0..64).filter(|comp| both >> comp & 1 == 1);
        sides.push(Side {
            other,
            fork: (number < other).then(|| comps.map(|comp| (comp, 0)).collect()),
            is_clean: false,
            has_token: other < number,
        });
    }
    Desk::Forks(Table::new(model, touched(model, own)), sides)
}

fn side_with(sides: &mut [Side], other: u16) -> &mut Side {
    sides.iter_mut().find(|side| side.other == other).expect("a neighbour")
}

/// Decides by a table, raised to all forks, and leaves its numbers in them; none where one is away.
fn decide_by_forks(table: &mut Table, sides: &mut [Side], wants: &[Want]) -> Option<Decision> {
    if sides.iter().any(|side| side.fork.is_none()) {
        return None;
    }
    for (comp, number) in sides.iter().flat_map(|side| side.fork.iter().flatten()) {
        table.raise(*comp, *number);
    }
    let decision = table.decide(wants)?;
    for side in sides {
        side.is_clean = false;
        for (comp, number) in side.fork.iter_mut().flatten() {
            *number = table.used(*comp);
        }
    }
    Some(decision)
}

/// Runs a station. A grant stands in the book before the class hears of it, and before the token or
/// a fork goes.
pub fn station(
    shared: &Shared<'_>,
    mut seat: Seat,
    turns: u32,
    inbox: Receiver<ToStation>,
    stations: &[Sender<ToStation>],
    classes: &[Sender<ToClass>],
) {
    let mut rest = Rest::default();
    for _ in 0..turns {
        let message = inbox.try_recv();
        let mut is_idle = message.is_err();
        message.into_iter().for_each(|message| seat.hear(message));
        if let Some((request, decision)) = seat.decide() {
            if !shared.enter(&request, decision) {
                return;
            }
            let Request { number, class, inter, .. } = request;
            let reply = Reply { class, number, inter, decision };
            let _ = classes[seat.class as usize].send(ToClass::Reply(reply));
            is_idle = false;
        }
        if !seat.share(stations) && is_idle {
            rest.give_way();
        }
    }
}
