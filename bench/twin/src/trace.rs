//! Traces: whether their grants are a run.

use crate::model::{Fault, Interaction, Model, Transition, Why, is_name, plain, words};

#[derive(Debug)]
struct Want {
    comp: usize,
    number: u64,
    moved: bool,
}

/// The number that a word spells: 1 to 20 digits, from 1 on.
fn number(word: &str) -> Option<u64> {
    let spelled = word.len() <= 20 && word.bytes().all(|b| b.is_ascii_digit());
    word.parse().ok().filter(|n| spelled && *n > 0)
}

/// The wants of a line by name, each with its number, and whether it is moved.
fn wants<'t>(
    said: impl Iterator<Item = &'t str>,
    named: &mut Vec<(&'t str, u64, bool)>,
) -> Option<()> {
    let mut moved = true;
    named.clear();
    for word in said {
        if moved && word == "see" && !named.is_empty() {
            moved = false;
            continue;
        }
        let (name, digits) = word.split_once(':')?;
        if !is_name(name) || named.len() == 32 || named.iter().any(|it| it.0 == name) {
            return None;
        }
        named.push((name, number(digits)?, moved));
    }
    let ends_well = named.last().is_some_and(|it| it.2 == moved);
    ends_well.then_some(())
}

/// Why a trace is no run: a line that can't be next, or that is no grant.
#[derive(Debug)]
pub enum End {
    Verdict(String),
    Fault(Fault),
}

/// Room for the wants of a line.
#[derive(Default)]
pub struct Room<'l> {
    named: Vec<(&'l str, u64, bool)>,
    wants: Vec<Want>,
}

/// Where a run has come to.
pub struct Position<'m, 't> {
    pub model: &'m Model<'t>,
    pub locations: Vec<usize>,
    pub values: Vec<[u32; 8]>,
    pub used: Vec<u64>,
}

impl<'m, 't> Position<'m, 't> {
    pub fn start(model: &'m Model<'t>) -> Self {
        let count = model.components.len();
        Position {
            model,
            locations: vec![0; count],
            values: model.components.iter().map(|it| it.start).collect(),
            used: vec![0; count],
        }
    }

    fn transition(&self, (comp, port): (usize, usize)) -> Option<&'m Transition> {
        self.model.components[comp].transition(self.locations[comp], port)
    }

    /// Whether a component offers a port.
    fn is_offered(&self, part: (usize, usize)) -> bool {
        self.transition(part).is_some_and(|it| it.clauses.holds(&self.values))
    }

    fn is_enabled(&self, interaction: &Interaction) -> bool {
        interaction.participants.iter().all(|part| self.is_offered(*part))
            && interaction.clauses.holds(&self.values)
    }

    /// The lowest enabled interaction above another one.
    fn blocking(&self, interaction: &Interaction) -> Option<usize> {
        let is_enabled = |high: &usize| self.is_enabled(&self.model.interactions[*high]);
        interaction.above.iter().copied().find(is_enabled)
    }

    /// Whether wants move what an interaction moves, see nothing but what it looks at, and cover
    /// each one above it.
    fn are_parties(&self, interaction: &Interaction, wants: &[Want]) -> bool {
        let moved = wants.iter().filter(|want| want.moved).map(|want| want.comp);
        let mut seen = wants.iter().filter(|want| !want.moved);
        moved.eq(interaction.participants.iter().map(|it| it.0))
            && seen.all(|want| interaction.looks.contains(&want.comp))
            && interaction.above.iter().all(|high| self.is_covered(*high, wants))
    }

    /// Whether a participant that is wanted doesn't offer its port, or all are wanted.
    fn is_covered(&self, high: usize, wants: &[Want]) -> bool {
        let parts = &self.model.interactions[high].participants;
        let is_wanted = |part: &(usize, usize)| wants.iter().any(|want| want.comp == part.0);
        parts.iter().any(|part| is_wanted(part) && !self.is_offered(*part))
            || parts.iter().all(is_wanted)
    }

    /// Why a grant can't be next.
    fn check(&self, name: &str, interaction: &Interaction, wants: &[Want]) -> Result<(), String> {
        if !self.is_enabled(interaction) {
            return Err(format!("{name} not enabled"));
        }
        if let Some(high) = self.blocking(interaction) {
            return Err(format!("{name} below {}", self.model.interaction_names[high]));
        }
        for want in wants {
            let expected = self.used[want.comp].checked_add(1);
            if expected != Some(want.number) {
                let name = self.model.component_names[want.comp];
                return Err(format!("{name} expected {}", expected.unwrap_or(0)));
            }
        }
        if self.are_parties(interaction, wants) { Ok(()) } else { Err(format!("{name} parties")) }
    }

    fn go(&mut self, interaction: &Interaction) {
        interaction.clauses.transfer(&mut self.values);
        for &(comp, port) in &interaction.participants {
            if let Some(transition) = self.transition((comp, port)) {
                transition.clauses.update(&mut self.values);
                self.locations[comp] = transition.target;
            }
            self.used[comp] += 1;
        }
    }
}

/// Goes on by a line, and says whether it is a grant.
pub fn line<'l>(
    position: &mut Position<'_, '_>,
    line: usize,
    bytes: &'l [u8],
    room: &mut Room<'l>,
) -> Result<bool, End> {
    let fault = |why| End::Fault(Fault { line, why });
    let syntax = || fault(Why::Syntax);
    let unknown = || fault(Why::Unknown);
    let mut said = words(plain(bytes).ok_or_else(syntax)?);
    let Some(first) = said.next() else { return Ok(false) };
    let is_said = |name: &&str| first == "grant" && is_name(name);
    let name = said.next().filter(is_said).ok_or_else(syntax)?;
    wants(said, &mut room.named).ok_or_else(syntax)?;
    let model = position.model;
    let inter = *model.interaction_numbers.get(name).ok_or_else(unknown)?;
    room.wants.clear();
    for &(component, number, moved) in &room.named {
        let comp = *model.component_numbers.get(component).ok_or_else(unknown)?;
        room.wants.push(Want { comp, number, moved });
    }
    room.wants.sort_unstable_by_key(|want| want.comp);
    let interaction = &model.interactions[inter];
    position
        .check(name, interaction, &room.wants)
        .map_err(|why| End::Verdict(format!("line {line}: {why}")))?;
    position.go(interaction);
    Ok(true)
}
