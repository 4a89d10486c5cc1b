//! Models and their texts.

use std::collections::{BTreeSet, HashMap, HashSet};
use std::fmt;

use crate::expressions::{Clauses, Variable, clauses, name, pair, value};

#[derive(Clone, Copy, Debug, PartialEq, Eq)]
pub enum Why {
    Syntax,
    Unknown,
    Twice,
    TooMany,
    Missing,
    TwoTransitions,
    PriorityCycle,
    NotAPartition,
}

#[derive(Debug)]
pub struct Fault {
    pub line: usize,
    pub why: Why,
}

impl fmt::Display for Fault {
    fn fmt(&self, f: &mut fmt::Formatter<'_>) -> fmt::Result {
        let words = match self.why {
            Why::Syntax => "syntax",
            Why::Unknown => "unknown name",
            Why::Twice => "named twice",
            Why::TooMany => "too many",
            Why::Missing => "missing",
            Why::TwoTransitions => "two transitions",
            Why::PriorityCycle => "priority cycle",
            Why::NotAPartition => "not a partition",
        };
        write!(f, "line {}: {words}", self.line)
    }
}

const MOST_PORTS: usize = 16;

#[derive(Debug)]
pub struct Transition {
    pub target: usize,
    pub clauses: Clauses<Variable>,
}

#[derive(Debug, Default)]
pub struct Component<'t> {
    variables: Vec<&'t str>,
    locations: Vec<&'t str>,
    ports: Vec<&'t str>,
    pub start: [u32; 8],
    transitions: Vec<Transition>,
    /// Of each location the transition for each port.
    pub leaving: Vec<[Option<usize>; MOST_PORTS]>,
}

impl Component<'_> {
    pub fn transition(&self, location: usize, port: usize) -> Option<&Transition> {
        self.leaving[location][port].map(|number| &self.transitions[number])
    }

    fn has(&self, name: &str) -> bool {
        [&self.variables, &self.locations, &self.ports].iter().any(|it| it.contains(&name))
    }
}

#[derive(Debug)]
pub struct Interaction {
    /// Each a component and its port, by component.
    pub participants: Vec<(usize, usize)>,
    pub clauses: Clauses<Variable>,
    /// The interactions above it, lowest first.
    pub above: Vec<usize>,
    /// The components that those move and it doesn't, lowest first.
    pub looks: Vec<usize>,
}

impl Interaction {
    fn moves(&self, comp: usize) -> bool {
        self.participants.iter().any(|it| it.0 == comp)
    }
}

#[derive(Debug, Default)]
pub struct Model<'t> {
    pub components: Vec<Component<'t>>,
    pub component_names: Vec<&'t str>,
    pub component_numbers: HashMap<&'t str, usize>,
    pub interactions: Vec<Interaction>,
    pub interaction_names: Vec<&'t str>,
    pub interaction_numbers: HashMap<&'t str, usize>,
}

const RESERVED: [&str; 15] = [
    "bip",
    "component",
    "var",
    "loc",
    "port",
    "trans",
    "end",
    "interaction",
    "priority",
    "class",
    "when",
    "do",
    "and",
    "grant",
    "see",
];

pub fn is_name(word: &str) -> bool {
    word.len() <= 32
        && word.starts_with(|c: char| c.is_ascii_alphabetic() || c == '_')
        && word.bytes().all(|b| b.is_ascii_alphanumeric() || b == b'_')
        && !RESERVED.contains(&word)
}

/// The text of a line; none where a byte can stand in no line.
pub fn plain(line: &[u8]) -> Option<&str> {
    if line.iter().all(|b| b.is_ascii_graphic() || matches!(b, b' ' | b'\t')) {
        std::str::from_utf8(line).ok()
    } else {
        None
    }
}

/// The words of a line, none of a comment.
pub fn words(line: &str) -> impl Iterator<Item = &str> {
    let comment = line.trim_start_matches([' ', '\t']).starts_with('#');
    let said = if comment { "" } else { line };
    said.split([' ', '\t']).filter(|word| !word.is_empty())
}

fn number_in(names: &[&str], name: &str) -> Result<usize, Why> {
    names.iter().position(|it| *it == name).ok_or(Why::Unknown)
}

#[derive(Default)]
struct Reading<'t> {
    headed: bool,
    model: Model<'t>,
    begun: Option<(&'t str, Component<'t>)>,
    priorities: Vec<(usize, usize)>,
    classes: Vec<(&'t str, Vec<usize>)>,
}

impl<'t> Reading<'t> {
    fn line(&mut self, words: &[&'t str]) -> Result<(), Why> {
        match (words, self.headed, self.begun.is_some()) {
            (["bip", "1"], false, _) => {
                self.headed = true;
                Ok(())
            }
            (["component", word], true, false) => self.component(name(word)?),
            (["var", word, start], true, true) => self.variable(name(word)?, value(start)?),
            (["loc", word], true, true) => self.location(name(word)?),
            (["port", word], true, true) => self.port(name(word)?),
            (["trans", port, from, to, rest @ ..], true, true) => {
                let ends = [name(port)?, name(from)?, name(to)?];
                self.transition(ends, clauses(rest, name)?)
            }
            (["end"], true, true) => self.end(),
            (["interaction", word, rest @ ..], true, false) => self.interaction(name(word)?, rest),
            (["priority", low, "<", high], true, false) => self.priority(name(low)?, name(high)?),
            (["class", word, members @ ..], true, false) if !members.is_empty() => {
                self.class(name(word)?, members)
            }
            _ => Err(Why::Syntax),
        }
    }

    fn inside(&mut self) -> Result<&mut Component<'t>, Why> {
        self.begun.as_mut().map(|(_, component)| component).ok_or(Why::Syntax)
    }

    fn component(&mut self, name: &'t str) -> Result<(), Why> {
        if self.model.component_numbers.contains_key(name) {
            return Err(Why::Twice);
        }
        if self.model.components.len() == 64 {
            return Err(Why::TooMany);
        }
        self.begun = Some((name, Component::default()));
        Ok(())
    }

    fn variable(&mut self, name: &'t str, start: u32) -> Result<(), Why> {
        let component = self.inside()?;
        if component.has(name) {
            return Err(Why::Twice);
        }
        let number = component.variables.len();
        *component.start.get_mut(number).ok_or(Why::TooMany)? = start;
        component.variables.push(name);
        Ok(())
    }

    fn location(&mut self, name: &'t str) -> Result<(), Why> {
        let component = self.inside()?;
        if component.has(name) {
            return Err(Why::Twice);
        }
        if component.locations.len() == 64 {
            return Err(Why::TooMany);
        }
        component.locations.push(name);
        component.leaving.push([None; MOST_PORTS]);
        Ok(())
    }

    fn port(&mut self, name: &'t str) -> Result<(), Why> {
        let component = self.inside()?;
        if component.has(name) {
            return Err(Why::Twice);
        }
        if component.ports.len() == MOST_PORTS {
            return Err(Why::TooMany);
        }
        component.ports.push(name);
        Ok(())
    }

    fn transition(&mut self, ends: [&str; 3], said: Clauses<&str>) -> Result<(), Why> {
        let comp = self.model.components.len();
        let component = self.inside()?;
        let port = number_in(&component.ports, ends[0])?;
        let from = number_in(&component.locations, ends[1])?;
        let target = number_in(&component.locations, ends[2])?;
        let variable = |name| Ok((comp, number_in(&component.variables, name)?));
        let clauses = said.known(variable, false)?;
        if clauses.is_too_long() || component.transitions.len() == 256 {
            return Err(Why::TooMany);
        }
        let number = component.transitions.len();
        component.transitions.push(Transition { target, clauses });
        match component.leaving[from][port].replace(number) {
            None => Ok(()),
            Some(_) => Err(Why::TwoTransitions),
        }
    }

    fn end(&mut self) -> Result<(), Why> {
        match self.begun.take() {
            Some((name, component)) if !component.locations.is_empty() => {
                self.model.component_numbers.insert(name, self.model.components.len());
                self.model.component_names.push(name);
                self.model.components.push(component);
                Ok(())
            }
            _ => Err(Why::Missing),
        }
    }

    fn interaction(&mut self, interaction: &'t str, words: &[&str]) -> Result<(), Why> {
        let is_end = |word: &&str| matches!(*word, "when" | "do");
        let end = words.iter().position(is_end).unwrap_or(words.len());
        let (ports, rest) = words.split_at(end);
        let ports = ports.iter().map(|word| pair(word)).collect::<Result<Vec<_>, Why>>()?;
        let said = clauses(rest, pair)?;
        if ports.is_empty() {
            return Err(Why::Syntax);
        }
        if self.model.interaction_numbers.contains_key(interaction) {
            return Err(Why::Twice);
        }
        let participants = self.participants(&ports)?;
        let clauses = said.known(|word| self.variable_of(&participants, word), true)?;
        if clauses.is_too_long() || participants.len() > 8 || self.model.interactions.len() == 128 {
            return Err(Why::TooMany);
        }
        let number = self.model.interactions.len();
        self.model.interaction_numbers.insert(interaction, number);
        self.model.interaction_names.push(interaction);
        let (above, looks) = (Vec::new(), Vec::new());
        self.model.interactions.push(Interaction { participants, clauses, above, looks });
        Ok(())
    }

    /// By component.
    fn participants(&self, ports: &[(&str, &str)]) -> Result<Vec<(usize, usize)>, Why> {
        let mut participants: Vec<(usize, usize)> = Vec::new();
        for (component, port) in ports {
            let comp = *self.model.component_numbers.get(component).ok_or(Why::Unknown)?;
            let port = number_in(&self.model.components[comp].ports, port)?;
            if participants.iter().any(|it| it.0 == comp) {
                return Err(Why::Twice);
            }
            participants.push((comp, port));
        }
        participants.sort_unstable();
        Ok(participants)
    }

    /// A variable of a participant.
    fn variable_of(
        &self,
        participants: &[(usize, usize)],
        (component, variable): (&str, &str),
    ) -> Result<Variable, Why> {
        let comp = *self.model.component_numbers.get(component).ok_or(Why::Unknown)?;
        let takes_part = participants.iter().any(|it| it.0 == comp);
        let number = number_in(&self.model.components[comp].variables, variable)?;
        if takes_part { Ok((comp, number)) } else { Err(Why::Unknown) }
    }

    fn priority(&mut self, low: &str, high: &str) -> Result<(), Why> {
        let number = |name| self.model.interaction_numbers.get(name).copied().ok_or(Why::Unknown);
        let pair = (number(low)?, number(high)?);
        if self.priorities.contains(&pair) {
            return Err(Why::Twice);
        }
        self.priorities.push(pair);
        Ok(())
    }

    fn class(&mut self, class: &'t str, members: &[&str]) -> Result<(), Why> {
        for member in members {
            name(member)?;
        }
        if self.classes.iter().any(|it| it.0 == class) {
            return Err(Why::Twice);
        }
        let numbers = members
            .iter()
            .map(|member| self.model.interaction_numbers.get(member).copied().ok_or(Why::Unknown))
            .collect::<Result<Vec<_>, Why>>()?;
        if self.classes.len() == 32 {
            return Err(Why::TooMany);
        }
        self.classes.push((class, numbers));
        Ok(())
    }

    fn finish(mut self) -> Result<Model<'t>, Why> {
        if !self.headed || self.begun.is_some() || self.model.components.is_empty() {
            return Err(Why::Missing);
        }
        self.raise()?;
        let mut seen = HashSet::new();
        let apart = self.classes.iter().flat_map(|it| &it.1).all(|number| seen.insert(*number));
        if apart && seen.len() == self.model.interactions.len() {
            Ok(self.model)
        } else {
            Err(Why::NotAPartition)
        }
    }

    /// Gives each interaction what stands above it, and what it looks at.
    fn raise(&mut self) -> Result<(), Why> {
        let count = self.model.interactions.len();
        let mut above = vec![BTreeSet::new(); count];
        let mut pairs = self.priorities.clone();
        while let Some((low, high)) = pairs.pop() {
            if above[low].insert(high) {
                let next = self.priorities.iter().filter(|it| it.0 == high);
                pairs.extend(next.map(|it| (low, it.1)));
            }
        }
        if above.iter().enumerate().any(|(low, above)| above.contains(&low)) {
            return Err(Why::PriorityCycle);
        }
        for (low, above) in above.into_iter().enumerate() {
            let interactions = &self.model.interactions;
            let moved = above.iter().flat_map(|high| &interactions[*high].participants);
            let moved: BTreeSet<usize> = moved.map(|it| it.0).collect();
            let looks = moved.into_iter().filter(|comp| !interactions[low].moves(*comp)).collect();
            let interaction = &mut self.model.interactions[low];
            interaction.above = above.into_iter().collect();
            interaction.looks = looks;
        }
        Ok(())
    }
}

pub fn lines(text: &[u8]) -> impl Iterator<Item = (usize, &[u8])> {
    let text = text.strip_suffix(b"\n").unwrap_or(text);
    text.split(|b| *b == b'\n').enumerate().map(|(at, line)| (at + 1, line))
}

pub fn parse(text: &[u8]) -> Result<Model<'_>, Fault> {
    let mut reading = Reading::default();
    let mut last = 1;
    for (number, bytes) in lines(text) {
        let at = |why| Fault { line: number, why };
        let line = plain(bytes).ok_or(at(Why::Syntax))?;
        let said: Vec<&str> = words(line).collect();
        if !said.is_empty() {
            reading.line(&said).map_err(at)?;
        }
        last = number;
    }
    reading.finish().map_err(|why| Fault { line: last, why })
}
