//! The plain twin of `bipr run`, on std alone: `MODEL TURNS RESOLVER`. The same threads, each with
//! the same turns, over one table behind a lock, a token ring or forks, and one book behind a lock,
//! which takes a grant only where it is a step of the model; messages go by std's channels. It
//! prints what is counted, as `bipr run --stats` tells it. The nodes are those of the twin of worlds.
#![allow(dead_code)]

#[path = "../steps/twin/bank.rs"]
mod bank;
#[path = "../steps/twin/model.rs"]
mod model;
#[path = "../steps/twin/run.rs"]
mod run;
mod stations;
#[path = "../steps/twin/world.rs"]
mod world;

use bank::Table;
use model::Model;
use run::Position;
use stations::{Seat, ToStation, station};
use std::hint;
use std::sync::Mutex;
use std::sync::mpsc::{Receiver, Sender, channel};
use std::thread;
use std::time::Instant;
use world::{ClassNode, ComponentNode, Decision, Grant, Notify, Offer, Reply, Request, Tried};

const IDLE_TURNS_A_YIELD: u32 = 64;

/// The book: where its grants lead, and the grants.
struct Book<'m> {
    position: Position<'m>,
    grants: Vec<Grant>,
}

impl Book<'_> {
    fn append(&mut self, grant: Grant) -> bool {
        let is_next = self.position.step(&grant);
        if is_next {
            self.grants.push(grant);
        }
        is_next
    }
}

/// What a class hears.
enum ToClass {
    Offer(Offer),
    Reply(Reply),
}

#[derive(Default)]
struct Rest(u32);

impl Rest {
    fn give_way(&mut self) {
        if self.0 < IDLE_TURNS_A_YIELD {
            self.0 += 1;
            hint::spin_loop();
        } else {
            self.0 = 0;
            thread::yield_now();
        }
    }
}

fn component(
    model: &Model,
    comp: u16,
    turns: u32,
    inbox: Receiver<Notify>,
    classes: Vec<Sender<ToClass>>,
) {
    let mut node = ComponentNode::start(model, comp);
    let mut rest = Rest::default();
    let offer = |offer: Offer| {
        for class in &classes {
            let _ = class.send(ToClass::Offer(offer));
        }
    };
    offer(node.offer);
    for _ in 0..turns {
        match inbox.try_recv() {
            Ok(notify) => node.on_notify(model, &notify).into_iter().for_each(offer),
            Err(_) => rest.give_way(),
        }
    }
}

struct Shared<'m> {
    model: &'m Model,
    table: Mutex<Table>,
    book: Mutex<Book<'m>>,
}

impl Shared<'_> {
    /// Decides under the table's lock, and appends a grant before that is let go.
    fn reserve(&self, request: &Request) -> Option<Decision> {
        let mut table = self.table.lock().expect("no panic");
        let decision = table.decide(&request.wants)?;
        self.enter(request, decision).then_some(decision)
    }

    /// Appends the grant of a request, if it is granted; whether the book takes it.
    fn enter(&self, request: &Request, decision: Decision) -> bool {
        match decision {
            Decision::Granted(_) => {
                self.append(Grant { inter: request.inter, wants: request.wants.clone() })
            }
            Decision::Refused { .. } => true,
        }
    }

    fn append(&self, grant: Grant) -> bool {
        self.book.lock().expect("no panic").append(grant)
    }
}

/// The grants of which a class went on to tell. It asks the table, or these stations, by
/// interaction.
fn class(
    shared: &Shared<'_>,
    class: u16,
    turns: u32,
    inbox: Receiver<ToClass>,
    components: &[Sender<Notify>],
    stations: &[Option<Sender<ToStation>>],
) -> u64 {
    let model = shared.model;
    let count = model.interactions.len() as u16;
    let of_class = |inter: &u16| model.interactions[*inter as usize].class == class;
    let inters: Vec<u16> = (0..count).filter(of_class).collect();
    let mut node = ClassNode::new(model, class);
    let (mut rest, mut told) = (Rest::default(), 0);
    let mut tell = |notifies: Vec<Notify>| {
        told += 1;
        for notify in notifies {
            let _ = components[notify.comp as usize].send(notify);
        }
    };
    for turn in 0..turns {
        let mut is_idle = false;
        match inbox.try_recv() {
            Ok(ToClass::Offer(offer)) => node.on_offer(model, offer),
            Ok(ToClass::Reply(reply)) => {
                let notifies = node.on_reply(model, &reply);
                if let Decision::Granted(_) = reply.decision {
                    tell(notifies);
                }
            }
            Err(_) => is_idle = true,
        }
        let inter = inters[turn as usize % inters.len()];
        match node.try_one(model, inter) {
            Tried::Not if is_idle => rest.give_way(),
            Tried::Not => {}
            Tried::Local(wants, notifies) => {
                if !shared.append(Grant { inter, wants }) {
                    break;
                }
                tell(notifies);
            }
            Tried::Sent(request) => {
                if let Some(station) = stations.get(inter as usize) {
                    let _ = station.as_ref().expect("a station").send(ToStation::Asked(request));
                    continue;
                }
                let Some(decision) = shared.reserve(&request) else {
                    break;
                };
                let number = request.number;
                let notifies = node.on_reply(model, &Reply { class, number, inter, decision });
                if let Decision::Granted(_) = decision {
                    tell(notifies);
                }
            }
        }
    }
    told
}

fn main() {
    let words: Vec<String> = std::env::args().skip(1).collect();
    let [text, turns, resolver] = &words[..] else {
        panic!("usage: MODEL TURNS RESOLVER");
    };
    let model = Model::read(&std::fs::read_to_string(text).expect("a model"));
    let turns: u32 = turns.parse().expect("a number");
    let begun = Instant::now();
    let shared = Shared {
        model: &model,
        table: Mutex::new(Table::new(&model, model.tabled)),
        book: Mutex::new(Book { position: Position::start(&model), grants: Vec::new() }),
    };
    let (offers, gathering): (Vec<_>, Vec<_>) = (0..model.classes).map(|_| channel()).unzip();
    let comps = 0..model.components.len();
    let (notices, receiving): (Vec<_>, Vec<_>) = comps.map(|_| channel()).unzip();
    let seats = Seat::all(&model, resolver);
    let (asking, serving): (Vec<_>, Vec<_>) = seats.iter().map(|_| channel()).unzip();
    let threads = model.components.len() + model.classes + seats.len();
    // by interaction, where there are stations
    let mut stations = vec![None; if seats.is_empty() { 0 } else { model.interactions.len() }];
    for (sender, inter) in asking.iter().zip(&model.stations) {
        stations[*inter as usize] = Some(sender.clone());
    }
    let told: u64 = thread::scope(|scope| {
        for (comp, inbox) in receiving.into_iter().enumerate() {
            let classes = &model.touching[comp];
            let classes = classes.iter().map(|class| offers[*class as usize].clone()).collect();
            let model = &model;
            scope.spawn(move || component(model, comp as u16, turns, inbox, classes));
        }
        let (shared, notices, stations) = (&shared, &notices, &stations);
        let telling: Vec<_> = gathering
            .into_iter()
            .enumerate()
            .map(|(number, inbox)| {
                scope.spawn(move || class(shared, number as u16, turns, inbox, notices, stations))
            })
            .collect();
        let (asking, offers) = (&asking, &offers);
        for (seat, inbox) in seats.into_iter().zip(serving) {
            scope.spawn(move || station(shared, seat, turns, inbox, asking, offers));
        }
        telling.into_iter().map(|handle| handle.join().expect("no panic")).sum()
    });
    let grants = shared.book.into_inner().expect("no panic").grants;
    assert!(run::is_run(&model, &grants), "no run");
    let all = threads as u64 * u64::from(turns);
    let seconds = begun.elapsed().as_secs_f64();
    eprint!("threads {threads} turns {all} grants {} told {told} lost 0", grants.len());
    eprintln!(" seconds {seconds:.3}");
}
