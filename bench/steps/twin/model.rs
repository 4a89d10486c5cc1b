//! Models and their texts, which are taken to be well formed, and what a model's classes plan.

use std::collections::HashMap;

/// The values of a component's variables, at most eight.
#[derive(Clone, Copy, Default)]
pub struct Values {
    values: [u32; 8],
    len: u8,
}

impl Values {
    pub fn len(&self) -> usize {
        self.len as usize
    }

    fn push(&mut self, value: u32) {
        self.values[self.len as usize] = value;
        self.len += 1;
    }
}

/// A number, or a variable: whose it is, by the place among participants, and which.
#[derive(Clone, Copy)]
enum Term {
    Value(u32),
    Of(usize, usize),
}

/// Terms, each with whether it is taken away.
struct Sum(Vec<(bool, Term)>);

impl Sum {
    fn value(&self, values: &[Values]) -> u32 {
        self.0.iter().fold(0, |sum: u32, (minus, term)| {
            let number = match *term {
                Term::Value(number) => number,
                Term::Of(owner, number) => values[owner].values[number],
            };
            if *minus { sum.wrapping_sub(number) } else { sum.wrapping_add(number) }
        })
    }
}

struct Comparison {
    left: Sum,
    relation: fn(&u32, &u32) -> bool,
    right: Sum,
}

struct Assignment {
    target: (usize, usize),
    sum: Sum,
}

#[derive(Default)]
pub struct Guard(Vec<Comparison>);

impl Guard {
    pub fn is_empty(&self) -> bool {
        self.0.is_empty()
    }

    pub fn holds(&self, values: &[Values]) -> bool {
        self.0.iter().all(|it| (it.relation)(&it.left.value(values), &it.right.value(values)))
    }
}

#[derive(Default)]
pub struct Assignments(Vec<Assignment>);

impl Assignments {
    pub fn is_empty(&self) -> bool {
        self.0.is_empty()
    }

    /// One after another, of a component's own values.
    fn update(&self, values: Values) -> Values {
        let mut own = [values];
        for it in &self.0 {
            own[0].values[it.target.1] = it.sum.value(&own);
        }
        own[0]
    }

    /// All at once, of the values of participants.
    pub fn transfer(&self, values: &mut [Values]) {
        let sums: Vec<u32> = self.0.iter().map(|it| it.sum.value(values)).collect();
        for (it, sum) in self.0.iter().zip(sums) {
            values[it.target.0].values[it.target.1] = sum;
        }
    }
}

struct Transition {
    port: u8,
    target: u8,
    guard: Guard,
    update: Assignments,
}

#[derive(Default)]
pub struct Component {
    variables: Vec<String>,
    locations: Vec<String>,
    ports: Vec<String>,
    pub start: Values,
    /// By location.
    transitions: Vec<Vec<Transition>>,
}

impl Component {
    /// The ports that are offered, one bit each.
    pub fn offered(&self, location: u8, values: Values) -> u16 {
        self.transitions[location as usize]
            .iter()
            .filter(|it| it.guard.holds(&[values]))
            .fold(0, |ports, it| ports | 1 << it.port)
    }

    /// Where a port leads.
    pub fn moved(&self, location: u8, values: Values, port: u8) -> Option<(u8, Values)> {
        let found = self.transitions[location as usize].iter().find(|it| it.port == port)?;
        Some((found.target, found.update.update(values)))
    }

    /// Whether it can make such an offer.
    pub fn can_offer(&self, values: &Values, ports: u16) -> bool {
        values.len() == self.variables.len() && u32::from(ports) >> self.ports.len() == 0
    }
}

/// An interaction, and what its class is planned to do with it.
#[derive(Default)]
pub struct Interaction {
    pub name: String,
    pub parts: Vec<(u16, u8)>,
    pub guard: Guard,
    pub transfer: Assignments,
    pub class: u16,
    pub above: Vec<u16>,
    /// The components that it moves or looks at, each with whether it is moved.
    pub touched: Vec<(u16, bool)>,
    /// Those that it moves, one bit each.
    pub moved: u64,
    /// Those that it only looks at, one bit each.
    pub looked: u64,
    /// Those in conflict with it, one bit each.
    pub conflicts: u128,
    pub reserved: bool,
}

/// A model with its plan.
#[derive(Default)]
pub struct Model {
    pub components: Vec<Component>,
    pub interactions: Vec<Interaction>,
    pub classes: usize,
    pub class_names: Vec<String>,
    /// By component: the classes that touch it.
    pub touching: Vec<Vec<u16>>,
    /// By class: the components that it touches, one bit each.
    pub touched: Vec<u64>,
    pub tabled: u64,
    pub stations: Vec<u16>,
}

fn place(names: &[String], name: &str) -> usize {
    names.iter().position(|it| it == name).expect("a known name")
}

/// Reads a term by what it says of variables.
type Scope<'s> = &'s dyn Fn(&str) -> (usize, usize);

fn sum(words: &[&str], scope: Scope) -> Sum {
    let mut minus = false;
    let mut terms = Vec::new();
    for word in words {
        match (*word, word.parse()) {
            ("+", _) => minus = false,
            ("-", _) => minus = true,
            (_, Ok(number)) => terms.push((minus, Term::Value(number))),
            _ => {
                let (owner, number) = scope(word);
                terms.push((minus, Term::Of(owner, number)));
            }
        }
    }
    Sum(terms)
}

fn relation(word: &str) -> Option<fn(&u32, &u32) -> bool> {
    Some(match word {
        "=" => u32::eq,
        "!=" => u32::ne,
        "<" => u32::lt,
        "<=" => u32::le,
        ">" => u32::gt,
        ">=" => u32::ge,
        _ => return None,
    })
}

fn comparison(words: &[&str], scope: Scope) -> Comparison {
    let at = words.iter().position(|word| relation(word).is_some()).expect("a relation");
    Comparison {
        left: sum(&words[..at], scope),
        relation: relation(words[at]).expect("a relation"),
        right: sum(&words[at + 1..], scope),
    }
}

/// What stands behind a `when` and behind a `do`.
fn clauses(words: &[&str], scope: Scope) -> (Guard, Assignments) {
    let end = words.iter().position(|word| *word == "do").unwrap_or(words.len());
    let guard = words[..end].strip_prefix(&["when"]).map_or(Guard::default(), |said| {
        Guard(said.split(|word| *word == "and").map(|one| comparison(one, scope)).collect())
    });
    let update = words[end..].strip_prefix(&["do"]).map_or(Assignments::default(), |said| {
        let assignment = |one: &[&str]| Assignment {
            target: scope(one[0]),
            sum: sum(&one[2..], scope),
        };
        Assignments(said.split(|word| *word == ";").map(assignment).collect())
    });
    (guard, update)
}

#[derive(Default)]
struct Reading<'t> {
    model: Model,
    components: HashMap<&'t str, usize>,
    interactions: HashMap<&'t str, usize>,
    priorities: Vec<(usize, usize)>,
}

impl<'t> Reading<'t> {
    fn line(&mut self, words: &[&'t str]) {
        let last = self.model.components.last_mut();
        match (words, last) {
            (["component", name], _) => {
                self.components.insert(name, self.model.components.len());
                self.model.components.push(Component::default());
            }
            (["var", name, value], Some(component)) => {
                component.variables.push(name.to_string());
                component.start.push(value.parse().expect("a value"));
            }
            (["loc", name], Some(component)) => {
                component.locations.push(name.to_string());
                component.transitions.push(Vec::new());
            }
            (["port", name], Some(component)) => component.ports.push(name.to_string()),
            (["trans", port, from, to, rest @ ..], Some(component)) => {
                transition(component, port, from, to, rest);
            }
            (["interaction", name, rest @ ..], _) => self.interaction(name, rest),
            (["priority", low, "<", high], _) => {
                let pair = (self.interactions[low], self.interactions[high]);
                self.priorities.push(pair);
            }
            (["class", name, members @ ..], _) => self.class(name, members),
            _ => {}
        }
    }

    fn interaction(&mut self, name: &'t str, words: &[&str]) {
        let ends = |word: &&str| matches!(*word, "when" | "do");
        let end = words.iter().position(ends).unwrap_or(words.len());
        let (named, rest) = words.split_at(end);
        let mut parts: Vec<(u16, u8)> = named.iter().map(|word| self.part(word)).collect();
        parts.sort_unstable();
        let scope = |word: &str| {
            let (component, variable) = word.split_once('.').expect("a variable");
            let comp = self.components[component];
            let owner = parts.iter().position(|part| part.0 as usize == comp).expect("a part");
            (owner, place(&self.model.components[comp].variables, variable))
        };
        let (guard, transfer) = clauses(rest, &scope);
        self.interactions.insert(name, self.model.interactions.len());
        let name = name.to_string();
        let made = Interaction { name, parts, guard, transfer, ..Default::default() };
        self.model.interactions.push(made);
    }

    fn part(&self, word: &str) -> (u16, u8) {
        let (component, port) = word.split_once('.').expect("a port");
        let comp = self.components[component];
        (comp as u16, place(&self.model.components[comp].ports, port) as u8)
    }

    fn class(&mut self, name: &str, members: &[&str]) {
        self.model.class_names.push(name.to_string());
        for member in members {
            let inter = self.interactions[member];
            self.model.interactions[inter].class = self.model.classes as u16;
        }
        self.model.classes += 1;
    }
}

fn transition(component: &mut Component, port: &str, from: &str, to: &str, rest: &[&str]) {
    let scope = |word: &str| (0, place(&component.variables, word));
    let (guard, update) = clauses(rest, &scope);
    let made = Transition {
        port: place(&component.ports, port) as u8,
        target: place(&component.locations, to) as u8,
        guard,
        update,
    };
    let from = place(&component.locations, from);
    component.transitions[from].push(made);
}

impl Model {
    pub fn read(text: &str) -> Model {
        let mut reading = Reading::default();
        for line in text.lines() {
            let words: Vec<&str> = line.split_whitespace().collect();
            reading.line(&words);
        }
        let Reading { mut model, priorities, .. } = reading;
        model.raise(&priorities);
        model.plan();
        model
    }

    /// Closes the priorities.
    fn raise(&mut self, priorities: &[(usize, usize)]) {
        let mut above: Vec<Vec<u16>> = vec![Vec::new(); self.interactions.len()];
        let mut pairs = priorities.to_vec();
        while let Some((low, high)) = pairs.pop() {
            if !above[low].contains(&(high as u16)) {
                above[low].push(high as u16);
                pairs.extend(priorities.iter().filter(|it| it.0 == high).map(|it| (low, it.1)));
            }
        }
        for (inter, mut above) in self.interactions.iter_mut().zip(above) {
            above.sort_unstable();
            inter.above = above;
        }
    }

    fn moved(&self, inter: usize) -> u64 {
        self.interactions[inter].parts.iter().fold(0, |set, part| set | 1 << part.0)
    }

    fn plan(&mut self) {
        let count = self.interactions.len();
        let moved: Vec<u64> = (0..count).map(|inter| self.moved(inter)).collect();
        let above = |inter: &Interaction| {
            inter.above.iter().fold(0, |set, high| set | moved[*high as usize])
        };
        let looked: Vec<u64> = self.interactions.iter().map(above).collect();
        let touched: Vec<u64> = (0..count).map(|inter| moved[inter] | looked[inter]).collect();
        self.plan_classes(&touched);
        self.plan_tabled(&moved, &touched);
        for number in 0..count {
            let meets = |other: &usize| {
                let both = touched[number] & touched[*other];
                both & (moved[number] | moved[*other]) != 0
            };
            let inter = &mut self.interactions[number];
            inter.conflicts = (0..count).filter(meets).fold(0, |set, other| set | 1 << other);
            inter.reserved = touched[number] & self.tabled != 0;
            inter.moved = moved[number];
            inter.looked = touched[number] & !moved[number];
            inter.touched = (0..self.components.len() as u16)
                .filter(|comp| touched[number] >> comp & 1 == 1)
                .map(|comp| (comp, moved[number] >> comp & 1 == 1))
                .collect();
            if inter.reserved {
                self.stations.push(number as u16);
            }
        }
    }

    fn plan_classes(&mut self, touched: &[u64]) {
        self.touched = vec![0; self.classes];
        for (inter, touched) in self.interactions.iter().zip(touched) {
            self.touched[inter.class as usize] |= touched;
        }
        let touches = |class: &u16, comp: usize| self.touched[*class as usize] >> comp & 1 == 1;
        self.touching = (0..self.components.len())
            .map(|comp| (0..self.classes as u16).filter(|class| touches(class, comp)).collect())
            .collect();
    }

    /// Components of several classes, or that are looked at, and all that are touched beside them.
    fn plan_tabled(&mut self, moved: &[u64], touched: &[u64]) {
        let shared = |set: u64, comp: usize| set | u64::from(self.touching[comp].len() > 1) << comp;
        let mut tabled = (0..self.components.len()).fold(0, shared);
        tabled |= moved.iter().zip(touched).fold(0, |set, (moved, touched)| set | touched & !moved);
        while let Some(more) = touched.iter().find(|it| **it & tabled != 0 && **it & !tabled != 0) {
            tabled |= more;
        }
        self.tabled = tabled;
    }
}
