//! The world: component nodes, class nodes, a bank, and the messages in flight.

use crate::bank::{Acted, Bank, Step};
use crate::model::{Interaction, Model, Values};
use std::collections::VecDeque;
#[cfg(not(threads))]
use std::rc::Rc;
#[cfg(threads)]
use std::sync::Arc as Rc;

#[derive(Clone, Copy)]
pub struct Want {
    pub number: u64,
    pub comp: u16,
    pub moved: bool,
}

pub struct Grant {
    pub inter: u16,
    pub wants: Rc<[Want]>,
}

#[derive(Clone, Copy)]
pub struct Offer {
    number: u64,
    values: Values,
    comp: u16,
    ports: u16,
}

pub struct Notify {
    number: u64,
    values: Values,
    pub comp: u16,
    port: u8,
}

/// Why an interaction isn't enabled: a participant's port is off, or its guard is false.
pub enum Cause {
    Port(u16),
    Guard,
}

pub struct Reason {
    inter: u16,
    cause: Cause,
}

impl Reason {
    /// The components that it names, one bit each.
    fn named(&self, model: &Model) -> u64 {
        match self.cause {
            Cause::Port(comp) => 1 << comp,
            Cause::Guard => model.interactions[self.inter as usize].moved,
        }
    }
}

pub struct Request {
    pub wants: Rc<[Want]>,
    #[allow(dead_code)]
    pub reasons: Vec<Reason>,
    pub number: u64,
    pub class: u16,
    pub inter: u16,
}

#[derive(Clone, Copy)]
pub enum Decision {
    #[allow(dead_code)]
    Granted(u64),
    Refused { comp: u16, used: u64 },
}

pub struct Reply {
    pub class: u16,
    pub number: u64,
    pub inter: u16,
    pub decision: Decision,
}

enum Message {
    Offer(u16, Offer),
    Request(Request),
    Reply(Reply),
    Notify(Notify),
}

#[derive(Clone, Copy)]
pub enum Event {
    Mail(usize),
    Try(u16, u16),
    Bank(Step),
}

#[derive(Clone, Copy, Default)]
pub struct Report {
    pub events: u64,
    pub grants: u64,
    pub refusals: u64,
    pub idle: u64,
    pub skipped: u64,
    pub lost: u128,
}

pub struct ComponentNode {
    pub offer: Offer,
    location: u8,
    spent: bool,
}

impl ComponentNode {
    pub fn start(model: &Model, comp: u16) -> ComponentNode {
        let component = &model.components[comp as usize];
        let values = component.start;
        let offer = Offer { number: 1, values, comp, ports: component.offered(0, values) };
        ComponentNode { offer, location: 0, spent: false }
    }

    /// Moves by a notification that is for its next move, and says what it offers then.
    pub fn on_notify(&mut self, model: &Model, notify: &Notify) -> Option<Offer> {
        let now = &self.offer;
        if self.spent
            || notify.number != now.number
            || notify.values.len() != now.values.len()
            || now.ports.checked_shr(u32::from(notify.port)).unwrap_or(0) & 1 == 0
        {
            return None;
        }
        let component = &model.components[now.comp as usize];
        let led = component.moved(self.location, notify.values, notify.port);
        let (location, values) = led.unwrap_or((self.location, notify.values));
        self.location = location;
        self.offer.values = values;
        self.offer.ports = component.offered(location, values);
        match self.offer.number.checked_add(1) {
            Some(number) => {
                self.offer.number = number;
                Some(self.offer)
            }
            None => {
                self.spent = true;
                None
            }
        }
    }
}

struct Record {
    number: u64,
    wants: Rc<[Want]>,
    notifies: Vec<Notify>,
}

#[allow(dead_code)]
enum Verdict {
    Ready,
    NotReady(u16),
    PortOff(u16),
    GuardFalse,
    Below(u16),
}

pub enum Tried {
    Not,
    Local(Rc<[Want]>, Vec<Notify>),
    Sent(Request),
}

pub struct ClassNode {
    class: u16,
    known: Vec<u64>,
    held: Vec<Option<Offer>>,
    /// The interactions whose requests are open, one bit each.
    open: u128,
    records: Vec<Option<Record>>,
    next: Option<u64>,
}

impl ClassNode {
    pub fn new(model: &Model, class: u16) -> ClassNode {
        ClassNode {
            class,
            known: vec![0; model.components.len()],
            held: vec![None; model.components.len()],
            open: 0,
            records: model.interactions.iter().map(|_| None).collect(),
            next: Some(1),
        }
    }

    pub fn on_offer(&mut self, model: &Model, offer: Offer) {
        let comp = offer.comp as usize;
        let touches = model.touched[self.class as usize] >> comp & 1 == 1;
        if !touches || !model.components[comp].can_offer(&offer.values, offer.ports) {
            return;
        }
        let held = self.held[comp].as_ref().map_or(0, |held| held.number);
        if offer.number > self.known[comp].max(held) {
            self.held[comp] = Some(offer);
        }
    }

    fn counted(&self, comp: u16) -> Option<&Offer> {
        let held = self.held[comp as usize].as_ref()?;
        (held.number > self.known[comp as usize]).then_some(held)
    }

    /// Whether a port is off by an offer that counts.
    fn is_off(&self, part: &(u16, u8)) -> bool {
        self.counted(part.0).is_some_and(|held| held.ports >> part.1 & 1 == 0)
    }

    /// The lowest participant without an offer that counts.
    fn missing(&self, parts: &[(u16, u8)]) -> Option<u16> {
        let part = parts.iter().find(|part| self.counted(part.0).is_none())?;
        Some(part.0)
    }

    fn values(&self, parts: &[(u16, u8)]) -> [Values; 8] {
        let mut values = [Values::default(); 8];
        for (value, part) in values.iter_mut().zip(parts) {
            if let Some(held) = &self.held[part.0 as usize] {
                *value = held.values;
            }
        }
        values
    }

    fn guard_holds(&self, model: &Model, inter: u16) -> bool {
        let inter = &model.interactions[inter as usize];
        let parts = &inter.parts;
        inter.guard.is_empty() || inter.guard.holds(&self.values(parts)[..parts.len()])
    }

    /// Whether the offers that count show that an interaction isn't enabled.
    fn exclude(&self, model: &Model, inter: u16) -> bool {
        let parts = &model.interactions[inter as usize].parts;
        parts.iter().any(|part| self.is_off(part))
            || self.missing(parts).is_none() && !self.guard_holds(model, inter)
    }

    fn decide(&self, model: &Model, inter: u16) -> Verdict {
        let said = &model.interactions[inter as usize];
        if let Some(comp) = self.missing(&said.parts) {
            return Verdict::NotReady(comp);
        }
        if let Some(part) = said.parts.iter().find(|part| self.is_off(part)) {
            return Verdict::PortOff(part.0);
        }
        if !self.guard_holds(model, inter) {
            return Verdict::GuardFalse;
        }
        let Some(high) = said.above.iter().find(|high| !self.exclude(model, **high)) else {
            return Verdict::Ready;
        };
        match self.missing(&model.interactions[*high as usize].parts) {
            Some(comp) => Verdict::NotReady(comp),
            None => Verdict::Below(*high),
        }
    }

    /// Why each interaction above one that is ready isn't enabled.
    fn reasons(&self, model: &Model, inter: u16) -> Vec<Reason> {
        let said = &model.interactions[inter as usize];
        let reason = |high: &u16| Reason { inter: *high, cause: self.cause(model, said, *high) };
        said.above.iter().map(reason).collect()
    }

    /// Names the lowest port that is off of what is moved, else the lowest one.
    fn cause(&self, model: &Model, said: &Interaction, high: u16) -> Cause {
        let parts = model.interactions[high as usize].parts.iter();
        let mut off = parts.filter(|part| self.is_off(part)).map(|part| part.0);
        let moved = off.clone().find(|comp| said.moved >> comp & 1 == 1);
        moved.or_else(|| off.next()).map_or(Cause::Guard, Cause::Port)
    }

    fn number(&self, comp: u16) -> u64 {
        self.held[comp as usize].as_ref().map_or(0, |held| held.number)
    }

    /// The components that an interaction moves, and those that reasons name.
    fn wants(&self, model: &Model, inter: u16, reasons: &[Reason]) -> Rc<[Want]> {
        let said = &model.interactions[inter as usize];
        let want = |&(comp, moved): &(u16, bool)| Want { number: self.number(comp), comp, moved };
        // without reasons nothing is above, and nothing is looked at
        if reasons.is_empty() {
            return said.touched.iter().map(want).collect();
        }
        let wanted = reasons.iter().fold(said.moved, |set, it| set | it.named(model));
        let those = said.touched.iter().filter(|(comp, _)| wanted >> comp & 1 == 1);
        those.map(want).collect()
    }

    fn notifies(&self, model: &Model, inter: u16) -> Vec<Notify> {
        let said = &model.interactions[inter as usize];
        let mut values = self.values(&said.parts);
        if !said.transfer.is_empty() {
            said.transfer.transfer(&mut values[..said.parts.len()]);
        }
        said.parts
            .iter()
            .zip(values)
            .map(|(&(comp, port), values)| {
                Notify { number: self.number(comp), values, comp, port }
            })
            .collect()
    }

    fn spend(&mut self, model: &Model, comp: u16, number: u64) {
        if model.touched[self.class as usize] >> comp & 1 == 1 {
            let known = &mut self.known[comp as usize];
            *known = (*known).max(number);
        }
    }

    fn learn(&mut self, model: &Model, wants: &[Want]) {
        for want in wants.iter().filter(|want| want.moved) {
            self.spend(model, want.comp, want.number);
        }
    }

    pub fn try_one(&mut self, model: &Model, inter: u16) -> Tried {
        let Some(said) = model.interactions.get(inter as usize) else {
            return Tried::Not;
        };
        if said.class != self.class || self.open & (said.conflicts | 1 << inter) != 0 {
            return Tried::Not;
        }
        let Verdict::Ready = self.decide(model, inter) else {
            return Tried::Not;
        };
        let notifies = self.notifies(model, inter);
        if !said.reserved {
            let wants = self.wants(model, inter, &[]);
            self.learn(model, &wants);
            return Tried::Local(wants, notifies);
        }
        let Some(number) = self.next else {
            return Tried::Not;
        };
        self.next = number.checked_add(1);
        self.open |= 1 << inter;
        let reasons = self.reasons(model, inter);
        let wants = self.wants(model, inter, &reasons);
        let record = Record { number, wants: Rc::clone(&wants), notifies };
        self.records[inter as usize] = Some(record);
        Tried::Sent(Request { wants, reasons, number, class: self.class, inter })
    }

    /// What the grant of an open request tells.
    pub fn on_reply(&mut self, model: &Model, reply: &Reply) -> Vec<Notify> {
        let taken = self.records[reply.inter as usize].take_if(|it| it.number == reply.number);
        let Some(record) = taken else {
            return Vec::new();
        };
        self.open &= !(1 << reply.inter);
        match reply.decision {
            Decision::Granted(_) => {
                self.learn(model, &record.wants);
                record.notifies
            }
            Decision::Refused { comp, used } => {
                self.spend(model, comp, used);
                Vec::new()
            }
        }
    }
}

pub struct World<'m, B> {
    model: &'m Model,
    components: Vec<ComponentNode>,
    classes: Vec<ClassNode>,
    mail: VecDeque<Message>,
    pub trace: Vec<Grant>,
    bank: B,
}

impl<'m, B: Bank> World<'m, B> {
    pub fn new(model: &'m Model) -> World<'m, B> {
        let comps = 0..model.components.len() as u16;
        let classes = 0..model.classes as u16;
        let mut world = World {
            model,
            components: comps.clone().map(|comp| ComponentNode::start(model, comp)).collect(),
            classes: classes.map(|class| ClassNode::new(model, class)).collect(),
            mail: VecDeque::new(),
            trace: Vec::new(),
            bank: B::new(model),
        };
        for comp in comps {
            let offer = world.components[comp as usize].offer;
            world.send_offer(offer);
        }
        world
    }

    pub fn mails(&self) -> usize {
        self.mail.len()
    }

    pub fn bank(&self) -> &B {
        &self.bank
    }

    /// Does all these events.
    pub fn run(&mut self, events: &[Event]) -> Report {
        let mut report = Report::default();
        for event in events {
            self.step(*event, &mut report);
        }
        report
    }

    pub fn step(&mut self, event: Event, report: &mut Report) {
        report.events += 1;
        let did = match event {
            Event::Mail(place) => self.deliver(place),
            Event::Try(class, inter) => self.try_one(class, inter, report),
            Event::Bank(step) => self.act(step, report),
        };
        report.idle += u64::from(did.is_none());
    }

    fn send_offer(&mut self, offer: Offer) {
        for class in &self.model.touching[offer.comp as usize] {
            self.mail.push_back(Message::Offer(*class, offer));
        }
    }

    fn deliver(&mut self, place: usize) -> Option<()> {
        match self.mail.remove(place)? {
            Message::Offer(class, offer) => {
                self.classes.get_mut(class as usize)?.on_offer(self.model, offer);
            }
            Message::Request(request) => self.bank.submit(request),
            Message::Reply(reply) => {
                let class = self.classes.get_mut(reply.class as usize)?;
                let told = class.on_reply(self.model, &reply);
                self.mail.extend(told.into_iter().map(Message::Notify));
            }
            Message::Notify(notify) => {
                let component = self.components.get_mut(notify.comp as usize)?;
                if let Some(offer) = component.on_notify(self.model, &notify) {
                    self.send_offer(offer);
                }
            }
        }
        Some(())
    }

    fn try_one(&mut self, class: u16, inter: u16, report: &mut Report) -> Option<()> {
        match self.classes.get_mut(class as usize)?.try_one(self.model, inter) {
            Tried::Not => return None,
            Tried::Local(wants, told) => {
                report.grants += 1;
                self.trace.push(Grant { inter, wants });
                self.mail.extend(told.into_iter().map(Message::Notify));
            }
            Tried::Sent(request) => self.mail.push_back(Message::Request(request)),
        }
        Some(())
    }

    fn act(&mut self, step: Step, report: &mut Report) -> Option<()> {
        let (request, decision) = match self.bank.act(self.model, step) {
            Acted::Nothing => return None,
            Acted::Moved => return Some(()),
            Acted::Answered(request, decision) => (request, decision),
        };
        let Request { wants, number, class, inter, .. } = request;
        match decision {
            Decision::Granted(_) => {
                report.grants += 1;
                self.trace.push(Grant { inter, wants });
            }
            Decision::Refused { .. } => report.refusals += 1,
        }
        self.mail.push_back(Message::Reply(Reply { class, number, inter, decision }));
        Some(())
    }
}
