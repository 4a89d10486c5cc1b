//! Usual lines: grants with blanks alone between words, and names and numbers that aren't long.

use std::arch::x86_64::*;

use crate::model::{Interaction, Model, Transition};
use crate::names::{Key, MOST, Names};
use crate::sums::{Part, Sums};
use crate::trace::{self, End, Position, Room};

/// So many bytes behind the lines can be read.
pub const PAD: usize = 64;

const PORTS: usize = 16;
const PLACES: usize = 64 * PORTS;
const NOWHERE: u8 = u8::MAX;
const NO_MOVE: Move = Move { target: NOWHERE, clauses: 0 };

/// Where a port leads from a location, and which clauses it has, if any.
#[derive(Clone, Copy)]
struct Move {
    target: u8,
    clauses: u16,
}

/// What an interaction does. A plain one has no clauses, nor have its transitions, and nothing
/// stands above it.
struct Step {
    moved: u64,
    seen: u64,
    parts: [(u8, u8); 8],
    count: u8,
    is_plain: bool,
    clauses: Part,
    above: Vec<usize>,
}

impl Step {
    #[inline(always)]
    fn parts(&self) -> &[(u8, u8)] {
        &self.parts[..self.count as usize]
    }
}

pub struct Fast<'m, 't> {
    position: Position<'m, 't>,
    components: Names,
    interactions: Names,
    steps: Vec<Step>,
    /// By component, location and port.
    moves: Vec<Move>,
    sums: Sums,
    /// The clauses of transitions; the first are of those that have none.
    clauses: Vec<Part>,
    line: usize,
    count: u64,
}

impl<'m, 't> Fast<'m, 't> {
    pub fn new(model: &'m Model<'t>) -> Self {
        let mut fast = Fast {
            position: Position::start(model),
            components: Names::of(&model.component_names),
            interactions: Names::of(&model.interaction_names),
            steps: Vec::new(),
            moves: vec![NO_MOVE; PLACES * model.components.len()],
            sums: Sums::default(),
            clauses: vec![Part::default()],
            line: 0,
            count: 0,
        };
        fast.add_moves(model);
        for interaction in &model.interactions {
            fast.add_step(interaction);
        }
        fast
    }

    fn add_moves(&mut self, model: &Model) {
        for (comp, component) in model.components.iter().enumerate() {
            for place in 0..component.leaving.len() * PORTS {
                let found = component.transition(place / PORTS, place % PORTS);
                self.moves[comp * PLACES + place] = found.map_or(NO_MOVE, |it| self.add_move(it));
            }
        }
    }

    fn add_move(&mut self, transition: &Transition) -> Move {
        let target = transition.target as u8;
        let part = self.sums.add(&transition.clauses);
        if part.is_empty() {
            return Move { target, clauses: 0 };
        }
        self.clauses.push(part);
        Move { target, clauses: self.clauses.len() as u16 - 1 }
    }

    fn add_step(&mut self, interaction: &Interaction) {
        let clauses = self.sums.add(&interaction.clauses);
        let set = |set, comp: usize| set | 1 << comp;
        let parts = &interaction.participants;
        let mut step = Step {
            moved: parts.iter().map(|it| it.0).fold(0, set),
            seen: interaction.looks.iter().copied().fold(0, set),
            parts: [(0, 0); 8],
            count: parts.len() as u8,
            is_plain: interaction.above.is_empty() && clauses.is_empty(),
            clauses,
            above: interaction.above.clone(),
        };
        for (part, &(comp, port)) in step.parts.iter_mut().zip(parts) {
            *part = (comp as u8, port as u8);
            let mut moves = self.moves[comp * PLACES..][..PLACES].iter().skip(port).step_by(PORTS);
            step.is_plain &= moves.all(|it| it.clauses == 0);
        }
        self.steps.push(step);
    }

    pub fn count(&self) -> u64 {
        self.count
    }

    /// Takes the lines of a text until its end, behind which `PAD` bytes can be read but for one.
    pub fn lines(&mut self, text: &[u8], end: usize) -> Result<(), End> {
        assert!(end + PAD <= text.len() + 1);
        let mut at = 0;
        while at < end {
            self.line += 1;
            // a usual line ends at its line feed, so it stands before the end
            if let Some(taken) = unsafe { self.usual(text.as_ptr().add(at)) } {
                self.count += 1;
                at += taken;
                continue;
            }
            let rest = &text[at..end];
            let len = rest.iter().position(|byte| *byte == b'\n').unwrap_or(rest.len());
            let mut room = Room::default();
            let is_grant = trace::line(&mut self.position, self.line, &rest[..len], &mut room)?;
            self.count += u64::from(is_grant);
            at += len + 1;
        }
        Ok(())
    }

    /// Goes on by a line, if it is a usual one and can be next: how many bytes it has.
    #[inline(always)]
    unsafe fn usual(&mut self, text: *const u8) -> Option<usize> {
        unsafe {
            let (number, seen, end) = self.grant(text)?;
            self.go(number, seen).then(|| end.offset_from_unsigned(text))
        }
    }

    /// The interaction of a usual line with the right wants, those that it sees, and what stands
    /// behind it. It may see fewer than the interaction looks at.
    #[inline(always)]
    unsafe fn grant(&self, text: *const u8) -> Option<(usize, u64, *const u8)> {
        unsafe {
            let head = text.cast::<u64>().read_unaligned();
            if head & 0xffff_ffff_ffff != u64::from_le_bytes(*b"grant \0\0") {
                return None;
            }
            let start = behind_blanks(text.add(5));
            let (key, len) = name(start, b' ')?;
            let number = self.interactions.number(key)?;
            let step = self.steps.get_unchecked(number);
            let mut at = start.add(len);
            let (mut sets, mut role, mut wrong) = ([0; 2], 0, 0);
            while *at == b' ' {
                at = behind_blanks(at);
                if role == 0 && at.cast::<[u8; 4]>().read() == *b"see " {
                    role = 1;
                    at = behind_blanks(at.add(3));
                }
                let (key, len) = name(at, b':')?;
                let comp = self.components.number(key)?;
                let (said, digits) = small_number(at.add(len + 1))?;
                let expected = self.position.used.get_unchecked(comp).wrapping_add(1);
                wrong |= ((sets[0] | sets[1]) & 1 << comp) | (said ^ expected);
                sets[role] |= 1 << comp;
                at = at.add(len + 1 + digits);
            }
            wrong |= (sets[0] ^ step.moved) | (sets[1] & !step.seen);
            (wrong == 0 && *at == b'\n').then_some((number, sets[1], at.add(1)))
        }
    }

    #[inline(always)]
    fn leaving(&self, (comp, port): (u8, u8)) -> Move {
        let comp = comp as usize;
        // each component has all its places, and is in one of its locations
        unsafe {
            let location = *self.position.locations.get_unchecked(comp);
            *self.moves.get_unchecked(comp * PLACES + location * PORTS + port as usize)
        }
    }

    #[inline(always)]
    fn is_offered(&self, part: (u8, u8)) -> bool {
        let Move { target, clauses } = self.leaving(part);
        let values = self.position.values.as_flattened();
        let holds = || self.sums.holds(&self.clauses[clauses as usize], values);
        target != NOWHERE && (clauses == 0 || holds())
    }

    #[inline(always)]
    fn is_enabled(&self, step: &Step) -> bool {
        let values = self.position.values.as_flattened();
        step.parts().iter().all(|part| self.is_offered(*part))
            && self.sums.holds(&step.clauses, values)
    }

    /// Whether a component of these that takes part doesn't offer its port, or all that take part
    /// are of these.
    fn is_covered(&self, step: &Step, wanted: u64) -> bool {
        let is_off = |part: &(u8, u8)| wanted >> part.0 & 1 == 1 && !self.is_offered(*part);
        step.moved & !wanted == 0 || step.parts().iter().any(is_off)
    }

    /// Goes on by an interaction that sees these components, if it may run and they are enough.
    #[inline(always)]
    fn go(&mut self, number: usize, seen: u64) -> bool {
        let step = unsafe { self.steps.get_unchecked(number) };
        if !step.is_plain {
            return self.go_by_clauses(number, seen);
        }
        let mut targets = [0; 8];
        let mut is_offered = true;
        for (target, part) in targets.iter_mut().zip(step.parts()) {
            *target = self.leaving(*part).target;
            is_offered &= *target != NOWHERE;
        }
        if is_offered {
            for (target, &(comp, _)) in targets.iter().zip(step.parts()) {
                self.position.locations[comp as usize] = *target as usize;
                self.position.used[comp as usize] += 1;
            }
        }
        is_offered
    }

    fn go_by_clauses(&mut self, number: usize, seen: u64) -> bool {
        let step = &self.steps[number];
        let mut above = step.above.iter().map(|high| &self.steps[*high]);
        if !self.is_enabled(step) || above.clone().any(|high| self.is_enabled(high)) {
            return false;
        }
        // what is seen in full covers all
        let wanted = step.moved | seen;
        if seen != step.seen && !above.all(|high| self.is_covered(high, wanted)) {
            return false;
        }
        self.sums.transfer(&step.clauses, self.position.values.as_flattened_mut());
        for &(comp, port) in step.parts() {
            let Move { target, clauses } = self.leaving((comp, port));
            let values = self.position.values.as_flattened_mut();
            self.sums.update(&self.clauses[clauses as usize], values);
            self.position.locations[comp as usize] = target as usize;
            self.position.used[comp as usize] += 1;
        }
        true
    }
}

/// Where the blanks end that begin here.
#[inline(always)]
unsafe fn behind_blanks(mut at: *const u8) -> *const u8 {
    unsafe {
        while *at == b' ' {
            at = at.add(1);
        }
        at
    }
}

/// A name before a byte, and how many bytes it has.
#[inline(always)]
unsafe fn name(text: *const u8, end: u8) -> Option<(Key, usize)> {
    unsafe {
        let bytes = _mm_loadu_si128(text.cast());
        let is_end = _mm_movemask_epi8(_mm_cmpeq_epi8(bytes, _mm_set1_epi8(end as i8)));
        let len = (is_end | 0x10000).trailing_zeros() as usize;
        if len == 0 || len > MOST {
            return None;
        }
        let kept = _mm_and_si128(bytes, _mm_loadu_si128(MASKS[len].as_ptr().cast()));
        let low = _mm_cvtsi128_si64(kept) as u64;
        let high = _mm_cvtsi128_si64(_mm_unpackhi_epi64(kept, kept)) as u64;
        Some((Key { low, high: high | (len as u64) << 56 }, len))
    }
}

/// So many bytes are kept.
static MASKS: [[u8; 16]; 16] = {
    let mut masks = [[0; 16]; 16];
    let mut len = 0;
    while len < 16 {
        let mut at = 0;
        while at < len {
            masks[len][at] = u8::MAX;
            at += 1;
        }
        len += 1;
    }
    masks
};

/// A number of 1 to 7 digits, and how many they are.
#[inline(always)]
unsafe fn small_number(text: *const u8) -> Option<(u64, usize)> {
    let bytes = unsafe { text.cast::<u64>().read_unaligned() };
    let digits = bytes ^ 0x3030_3030_3030_3030;
    // the high bit of each byte that is no digit; of those behind the first one it may be wrong
    let others = (digits.wrapping_add(0x7676_7676_7676_7676) | digits) & 0x8080_8080_8080_8080;
    let count = others.trailing_zeros() as usize / 8;
    if others == 0 || count == 0 {
        return None;
    }
    let pairs = (bytes << (64 - 8 * count)) & 0x0f0f_0f0f_0f0f_0f0f;
    let pairs = pairs.wrapping_mul(2561) >> 8;
    let fours = (pairs & 0x00ff_00ff_00ff_00ff).wrapping_mul(6553601) >> 16;
    let number = (fours & 0x0000_ffff_0000_ffff).wrapping_mul(42949672960001) >> 32;
    Some((number, count))
}
