//! Banks: who grants requests, and what the stations of a bank share.

use crate::model::Model;
use crate::world::{Decision, Grant, Request, Want};
use std::collections::VecDeque;
#[cfg(not(threads))]
use std::rc::Rc;
#[cfg(threads)]
use std::sync::Arc as Rc;

/// A step of a bank, of stations by number.
#[derive(Clone, Copy)]
pub enum Step {
    Deliver(usize),
    Serve(u16),
    Pass(u16, u16),
    Ask(u16, u16),
}

pub enum Acted {
    Nothing,
    Moved,
    Answered(Request, Decision),
}

impl Acted {
    fn moved(is_moved: bool) -> Acted {
        if is_moved { Acted::Moved } else { Acted::Nothing }
    }
}

pub trait Bank {
    fn new(model: &Model) -> Self;

    fn submit(&mut self, request: Request);

    fn act(&mut self, model: &Model, step: Step) -> Acted;

    /// How many things are in flight inside.
    fn in_flight(&self) -> usize;

    /// The step of a number, of those that such a bank may do.
    fn step_of(&self, model: &Model, number: usize) -> Step;
}

/// Open requests by interaction, the oldest first, and grants in order of decision.
struct Desk {
    waiting: Vec<VecDeque<Request>>,
    grants: Vec<Grant>,
}

impl Desk {
    fn new(model: &Model) -> Desk {
        let waiting = model.interactions.iter().map(|_| VecDeque::new()).collect();
        Desk { waiting, grants: Vec::new() }
    }

    fn submit(&mut self, request: Request) {
        self.waiting[request.inter as usize].push_back(request);
    }

    fn has_open(&self, model: &Model, station: u16) -> bool {
        let inter = model.stations.get(station as usize);
        inter.is_some_and(|inter| !self.waiting[*inter as usize].is_empty())
    }

    /// Answers the oldest open request of a station, by a decision on its wants.
    fn answer(
        &mut self,
        model: &Model,
        station: u16,
        decide: impl FnOnce(&[Want]) -> Option<Decision>,
    ) -> Option<(Request, Decision)> {
        let inter = *model.stations.get(station as usize)?;
        let waiting = &mut self.waiting[inter as usize];
        let wants = &waiting.front()?.wants;
        let decision = decide(wants)?;
        if let Decision::Granted(_) = decision {
            self.grants.push(Grant { inter, wants: Rc::clone(wants) });
        }
        Some((waiting.pop_front()?, decision))
    }

    fn serve(
        &mut self,
        model: &Model,
        station: u16,
        decide: impl FnOnce(&[Want]) -> Option<Decision>,
    ) -> Acted {
        match self.answer(model, station, decide) {
            Some((request, decision)) => Acted::Answered(request, decision),
            None => Acted::Nothing,
        }
    }
}

/// Used numbers, of the components that have a row.
pub struct Table {
    used: Vec<Option<u64>>,
    serial: u64,
}

impl Table {
    pub fn new(model: &Model, rows: u64) -> Table {
        let row = |comp: usize| (rows >> comp & 1 == 1).then_some(0);
        Table { used: (0..model.components.len()).map(row).collect(), serial: 0 }
    }

    pub fn used(&self, comp: u16) -> u64 {
        self.used[comp as usize].unwrap_or(0)
    }

    pub fn raise(&mut self, comp: u16, number: u64) {
        if let Some(used) = &mut self.used[comp as usize] {
            *used = number.max(*used);
        }
    }

    pub fn decide(&mut self, wants: &[Want]) -> Option<Decision> {
        if wants.iter().any(|want| self.used[want.comp as usize].is_none()) {
            return None;
        }
        for want in wants {
            let used = self.used(want.comp);
            if want.number <= used {
                return Some(Decision::Refused { comp: want.comp, used });
            }
        }
        for want in wants.iter().filter(|want| want.moved) {
            self.used[want.comp as usize] = Some(want.number);
        }
        let serial = self.serial;
        self.serial += 1;
        Some(Decision::Granted(serial))
    }
}

/// One table for all.
pub struct Central {
    desk: Desk,
    table: Table,
}

impl Bank for Central {
    fn new(model: &Model) -> Central {
        Central { desk: Desk::new(model), table: Table::new(model, model.tabled) }
    }

    fn submit(&mut self, request: Request) {
        self.desk.submit(request);
    }

    fn act(&mut self, model: &Model, step: Step) -> Acted {
        match step {
            Step::Serve(station) => {
                self.desk.serve(model, station, |wants| self.table.decide(wants))
            }
            Step::Deliver(_) | Step::Pass(..) | Step::Ask(..) => Acted::Nothing,
        }
    }

    fn in_flight(&self) -> usize {
        0
    }

    fn step_of(&self, model: &Model, number: usize) -> Step {
        Step::Serve(one_of(model, number))
    }
}

/// The station of a number.
fn one_of(model: &Model, number: usize) -> u16 {
    (number % model.stations.len().max(1)) as u16
}

#[derive(PartialEq)]
enum Place {
    At(u16),
    To(u16),
}

/// The one table is in a token, which goes from station to station.
pub struct Ring {
    desk: Desk,
    table: Table,
    token: Place,
    count: u16,
}

impl Ring {
    fn pass(&mut self, from: u16, to: u16) -> bool {
        let next = if from + 1 < self.count { from + 1 } else { 0 };
        let goes = self.token == Place::At(from) && from < self.count && to == next;
        if goes {
            self.token = Place::To(to);
        }
        goes
    }

    fn arrive(&mut self) -> bool {
        let Place::To(to) = self.token else {
            return false;
        };
        self.token = Place::At(to);
        true
    }
}

impl Bank for Ring {
    fn new(model: &Model) -> Ring {
        Ring {
            desk: Desk::new(model),
            table: Table::new(model, model.tabled),
            token: Place::At(0),
            count: model.stations.len() as u16,
        }
    }

    fn submit(&mut self, request: Request) {
        self.desk.submit(request);
    }

    fn act(&mut self, model: &Model, step: Step) -> Acted {
        match step {
            Step::Serve(station) if self.token == Place::At(station) => {
                self.desk.serve(model, station, |wants| self.table.decide(wants))
            }
            Step::Pass(from, to) => Acted::moved(self.pass(from, to)),
            Step::Deliver(0) => Acted::moved(self.arrive()),
            _ => Acted::Nothing,
        }
    }

    fn in_flight(&self) -> usize {
        usize::from(matches!(self.token, Place::To(_)))
    }

    fn step_of(&self, model: &Model, number: usize) -> Step {
        let rest = number / 4;
        match number % 4 {
            0 => Step::Deliver(0),
            1 => Step::Pass(one_of(model, rest), one_of(model, rest + 1)),
            _ => Step::Serve(one_of(model, rest)),
        }
    }
}

/// A fork of two stations, and its request token.
struct Fork {
    /// The station where it lies; none while it is in flight.
    at: Option<u16>,
    is_clean: bool,
    /// The station that has the request token; none while that is in flight.
    token_at: Option<u16>,
    /// The used number of each component that both stations touch.
    numbers: Vec<(u16, u64)>,
}

struct Station {
    table: Table,
    /// The other station of each fork, and which it is; by station.
    forks: Vec<(u16, usize)>,
}

/// What is in flight to a station.
enum Parcel {
    Fork(u16, usize),
    Token(u16, usize),
}

/// Each station has a table, and a fork with each one that is in conflict with it.
pub struct Forks {
    desk: Desk,
    stations: Vec<Station>,
    forks: Vec<Fork>,
    flight: VecDeque<Parcel>,
}

impl Forks {
    /// Makes the fork of two stations that both touch these components.
    fn share(&mut self, low: u16, high: u16, comps: u64) {
        let number = self.forks.len();
        self.stations[low as usize].forks.push((high, number));
        self.stations[high as usize].forks.push((low, number));
        let both = (0..64).filter(|comp| comps >> comp & 1 == 1);
        self.forks.push(Fork {
            at: Some(low),
            is_clean: false,
            token_at: Some(high),
            numbers: both.map(|comp| (comp, 0)).collect(),
        });
    }

    /// The fork of two stations, if they share one.
    fn between(&self, one: u16, other: u16) -> Option<usize> {
        let forks = &self.stations.get(one as usize)?.forks;
        let place = forks.binary_search_by_key(&other, |it| it.0).ok()?;
        Some(forks[place].1)
    }

    fn pass(&mut self, from: u16, to: u16) -> bool {
        let Some(number) = self.between(from, to) else {
            return false;
        };
        let fork = &mut self.forks[number];
        let goes = fork.token_at == Some(from) && fork.at == Some(from) && !fork.is_clean;
        if goes {
            fork.at = None;
            self.flight.push_back(Parcel::Fork(to, number));
        }
        goes
    }

    /// A station asks another one for their fork.
    fn ask(&mut self, from: u16, to: u16) -> bool {
        let Some(number) = self.between(from, to) else {
            return false;
        };
        let fork = &mut self.forks[number];
        let goes = fork.token_at == Some(from) && fork.at != Some(from);
        if goes {
            fork.token_at = None;
            self.flight.push_back(Parcel::Token(to, number));
        }
        goes
    }

    fn deliver(&mut self, place: usize) -> bool {
        match self.flight.remove(place) {
            Some(Parcel::Fork(to, number)) => {
                self.forks[number].at = Some(to);
                self.forks[number].is_clean = true;
            }
            Some(Parcel::Token(to, number)) => self.forks[number].token_at = Some(to),
            None => return false,
        }
        true
    }

    fn has_all(&self, station: u16) -> bool {
        let has = |it: &Station| it.forks.iter().all(|it| self.forks[it.1].at == Some(station));
        self.stations.get(station as usize).is_some_and(has)
    }
}

impl Station {
    /// Decides by the table, raised to the forks, and leaves its numbers in them.
    fn decide(&mut self, forks: &mut [Fork], wants: &[Want]) -> Option<Decision> {
        for it in &self.forks {
            for (comp, number) in &forks[it.1].numbers {
                self.table.raise(*comp, *number);
            }
        }
        let decision = self.table.decide(wants)?;
        for it in &self.forks {
            let fork = &mut forks[it.1];
            fork.is_clean = false;
            for (comp, number) in &mut fork.numbers {
                *number = self.table.used(*comp);
            }
        }
        Some(decision)
    }
}

/// The components that an interaction touches, one bit each.
pub fn touched(model: &Model, inter: u16) -> u64 {
    let touched = &model.interactions[inter as usize].touched;
    touched.iter().fold(0, |set, (comp, _)| set | 1 << comp)
}

impl Bank for Forks {
    fn new(model: &Model) -> Forks {
        let touched: Vec<u64> = model.stations.iter().map(|inter| touched(model, *inter)).collect();
        let station = |rows: &u64| Station { table: Table::new(model, *rows), forks: Vec::new() };
        let mut all = Forks {
            desk: Desk::new(model),
            stations: touched.iter().map(station).collect(),
            forks: Vec::new(),
            flight: VecDeque::new(),
        };
        for high in 0..model.stations.len() as u16 {
            let conflicts = model.interactions[model.stations[high as usize] as usize].conflicts;
            for low in 0..high {
                if conflicts >> model.stations[low as usize] & 1 == 1 {
                    all.share(low, high, touched[low as usize] & touched[high as usize]);
                }
            }
        }
        for station in &mut all.stations {
            station.forks.sort_unstable();
        }
        all
    }

    fn submit(&mut self, request: Request) {
        self.desk.submit(request);
    }

    fn act(&mut self, model: &Model, step: Step) -> Acted {
        match step {
            Step::Serve(station) if self.has_all(station) => {
                let it = &mut self.stations[station as usize];
                self.desk.serve(model, station, |wants| it.decide(&mut self.forks, wants))
            }
            Step::Serve(_) => Acted::Nothing,
            Step::Pass(from, to) => Acted::moved(self.pass(from, to)),
            Step::Ask(from, to) if self.desk.has_open(model, from) => {
                Acted::moved(self.ask(from, to))
            }
            Step::Ask(..) => Acted::Nothing,
            Step::Deliver(place) => Acted::moved(self.deliver(place)),
        }
    }

    fn in_flight(&self) -> usize {
        self.flight.len()
    }

    fn step_of(&self, model: &Model, number: usize) -> Step {
        let rest = number / 4;
        let one = one_of(model, rest);
        let other = one_of(model, rest / model.stations.len().max(1));
        match number % 4 {
            0 => Step::Deliver(rest % self.flight.len().max(1)),
            1 => Step::Pass(one, other),
            2 => Step::Ask(one, other),
            _ => Step::Serve(one),
        }
    }
}
