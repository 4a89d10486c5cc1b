//! Whether grants are a run of a model, with exact numbers.

use crate::model::{Interaction, Model, Values};
use crate::world::{Grant, Want};

/// Where a run stands: the state of each component, and its used number.
pub struct Position<'m> {
    model: &'m Model,
    locals: Vec<(u8, Values)>,
    used: Vec<u64>,
}

impl<'m> Position<'m> {
    pub fn start(model: &'m Model) -> Position<'m> {
        Position {
            model,
            locals: model.components.iter().map(|it| (0, it.start)).collect(),
            used: vec![0; model.components.len()],
        }
    }

    fn values(&self, inter: u16) -> [Values; 8] {
        let mut values = [Values::default(); 8];
        for (value, part) in values.iter_mut().zip(&self.model.interactions[inter as usize].parts) {
            *value = self.locals[part.0 as usize].1;
        }
        values
    }

    fn is_offered(&self, &(comp, port): &(u16, u8)) -> bool {
        let (location, values) = self.locals[comp as usize];
        self.model.components[comp as usize].offered(location, values) >> port & 1 == 1
    }

    fn is_enabled(&self, inter: u16) -> bool {
        let it = &self.model.interactions[inter as usize];
        it.parts.iter().all(|part| self.is_offered(part))
            && (it.guard.is_empty() || it.guard.holds(&self.values(inter)[..it.parts.len()]))
    }

    fn is_next(&self, want: &Want) -> bool {
        self.used[want.comp as usize].checked_add(1) == Some(want.number)
    }

    /// Whether wants move what an interaction moves, see nothing but what it looks at, and cover
    /// each one above it.
    fn are_parties(&self, it: &Interaction, wants: &[Want]) -> bool {
        let set = |moved| {
            let those = wants.iter().filter(|want| want.moved == moved);
            those.fold(0, |set: u64, want| set | 1 << want.comp)
        };
        let (moved, seen) = (set(true), set(false));
        moved == it.moved
            && seen & !it.looked == 0
            && it.above.iter().all(|high| self.is_covered(*high, moved | seen))
    }

    /// Whether a participant that is wanted doesn't offer its port, or all are wanted.
    fn is_covered(&self, high: u16, wanted: u64) -> bool {
        let it = &self.model.interactions[high as usize];
        let is_off = |part: &(u16, u8)| wanted >> part.0 & 1 == 1 && !self.is_offered(part);
        it.moved & !wanted == 0 || it.parts.iter().any(is_off)
    }

    /// Goes on by a grant, if it can be next.
    pub fn step(&mut self, grant: &Grant) -> bool {
        let it = &self.model.interactions[grant.inter as usize];
        let may = self.is_enabled(grant.inter)
            && !it.above.iter().any(|high| self.is_enabled(*high))
            && grant.wants.iter().all(|want| self.is_next(want))
            && self.are_parties(it, &grant.wants);
        if may {
            self.fire(grant);
        }
        may
    }

    fn fire(&mut self, grant: &Grant) {
        let it = &self.model.interactions[grant.inter as usize];
        let mut values = self.values(grant.inter);
        it.transfer.transfer(&mut values[..it.parts.len()]);
        for (&(comp, port), values) in it.parts.iter().zip(values) {
            let local = &mut self.locals[comp as usize];
            let led = self.model.components[comp as usize].moved(local.0, values, port);
            *local = led.unwrap_or((local.0, values));
        }
        for want in grant.wants.iter().filter(|want| want.moved) {
            self.used[want.comp as usize] = want.number;
        }
    }
}

/// Whether grants are a run of the model from its start.
pub fn is_run(model: &Model, trace: &[Grant]) -> bool {
    let mut position = Position::start(model);
    trace.iter().all(|grant| position.step(grant))
}
