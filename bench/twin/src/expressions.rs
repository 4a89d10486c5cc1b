//! Guards, updates and transfers: how they are written, and what they come to.

use crate::model::{Why, is_name};

const MOST: usize = 16;

/// A variable: the number of its component, and its own.
pub type Variable = (usize, usize);

/// The values of all components' variables, by component.
pub type Values = [[u32; 8]];

/// A value, or a variable by what it is called.
#[derive(Debug)]
pub enum Term<V> {
    Value(u32),
    Of(V),
}

/// Terms, each with whether it is taken away.
#[derive(Debug)]
pub struct Sum<V>(pub Vec<(bool, Term<V>)>);

#[derive(Clone, Copy, Debug)]
pub enum Relation {
    Equal,
    Unequal,
    Less,
    AtMost,
    Greater,
    AtLeast,
}

#[derive(Debug)]
pub struct Comparison<V> {
    pub left: Sum<V>,
    pub relation: Relation,
    pub right: Sum<V>,
}

#[derive(Debug)]
pub struct Assignment<V> {
    pub target: V,
    pub sum: Sum<V>,
}

/// What stands behind a `when` and behind a `do`.
#[derive(Debug)]
pub struct Clauses<V> {
    pub guard: Vec<Comparison<V>>,
    pub assignments: Vec<Assignment<V>>,
}

/// How a variable is spelled: `v` or `C.v`.
type Spelling<'t, V> = fn(&'t str) -> Result<V, Why>;

pub fn name(word: &str) -> Result<&str, Why> {
    if is_name(word) { Ok(word) } else { Err(Why::Syntax) }
}

/// The component and the part of it that a word `C.p` names.
pub fn pair(word: &str) -> Result<(&str, &str), Why> {
    let (component, part) = word.split_once('.').ok_or(Why::Syntax)?;
    Ok((name(component)?, name(part)?))
}

pub fn value(word: &str) -> Result<u32, Why> {
    let spelled = word.len() <= 10 && word.bytes().all(|b| b.is_ascii_digit());
    word.parse().ok().filter(|_| spelled).ok_or(Why::Syntax)
}

impl Relation {
    fn of(word: &str) -> Option<Relation> {
        Some(match word {
            "=" => Relation::Equal,
            "!=" => Relation::Unequal,
            "<" => Relation::Less,
            "<=" => Relation::AtMost,
            ">" => Relation::Greater,
            ">=" => Relation::AtLeast,
            _ => return None,
        })
    }

    pub fn holds(self, left: u32, right: u32) -> bool {
        match self {
            Relation::Equal => left == right,
            Relation::Unequal => left != right,
            Relation::Less => left < right,
            Relation::AtMost => left <= right,
            Relation::Greater => left > right,
            Relation::AtLeast => left >= right,
        }
    }
}

fn term<'t, V>(word: &'t str, spelled: Spelling<'t, V>) -> Result<Term<V>, Why> {
    if word.starts_with(|c: char| c.is_ascii_digit()) {
        value(word).map(Term::Value)
    } else {
        spelled(word).map(Term::Of)
    }
}

fn sum<'t, V>(words: &[&'t str], spelled: Spelling<'t, V>) -> Result<Sum<V>, Why> {
    let (first, rest) = words.split_first().ok_or(Why::Syntax)?;
    let mut terms = vec![(false, term(first, spelled)?)];
    for signed in rest.chunks(2) {
        match signed {
            ["+", word] => terms.push((false, term(word, spelled)?)),
            ["-", word] => terms.push((true, term(word, spelled)?)),
            _ => return Err(Why::Syntax),
        }
    }
    Ok(Sum(terms))
}

fn comparison<'t, V>(words: &[&'t str], spelled: Spelling<'t, V>) -> Result<Comparison<V>, Why> {
    let mut found = words.iter().enumerate();
    let relation = |(at, word): (usize, &&str)| Some((at, Relation::of(word)?));
    let (at, relation) = found.find_map(relation).ok_or(Why::Syntax)?;
    let (left, right) = (sum(&words[..at], spelled)?, sum(&words[at + 1..], spelled)?);
    Ok(Comparison { left, relation, right })
}

fn assignment<'t, V>(words: &[&'t str], spelled: Spelling<'t, V>) -> Result<Assignment<V>, Why> {
    match words {
        [target, ":=", rest @ ..] => {
            let target = spelled(target)?;
            Ok(Assignment { target, sum: sum(rest, spelled)? })
        }
        _ => Err(Why::Syntax),
    }
}

/// Reads `[when GUARD] [do ASSIGNS]`.
pub fn clauses<'t, V>(words: &[&'t str], spelled: Spelling<'t, V>) -> Result<Clauses<V>, Why> {
    let end = words.iter().position(|word| *word == "do").unwrap_or(words.len());
    let guard = match &words[..end] {
        [] => Vec::new(),
        ["when", said @ ..] => said
            .split(|word| *word == "and")
            .map(|one| comparison(one, spelled))
            .collect::<Result<_, _>>()?,
        _ => return Err(Why::Syntax),
    };
    let assignments = match &words[end..] {
        [] => Vec::new(),
        [_, said @ ..] => said
            .split(|word| *word == ";")
            .map(|one| assignment(one, spelled))
            .collect::<Result<_, _>>()?,
    };
    Ok(Clauses { guard, assignments })
}

impl<V> Sum<V> {
    fn known<W>(self, find: &impl Fn(V) -> Result<W, Why>) -> Result<Sum<W>, Why> {
        let known = |(minus, term)| {
            let term = match term {
                Term::Value(value) => Term::Value(value),
                Term::Of(variable) => Term::Of(find(variable)?),
            };
            Ok((minus, term))
        };
        self.0.into_iter().map(known).collect::<Result<_, _>>().map(Sum)
    }
}

impl<V> Clauses<V> {
    /// The same with variables that are known; with targets that are apart, where they have to be.
    pub fn known<W: PartialEq>(
        self,
        find: impl Fn(V) -> Result<W, Why>,
        apart: bool,
    ) -> Result<Clauses<W>, Why> {
        let mut guard = Vec::new();
        for it in self.guard {
            let (left, right) = (it.left.known(&find)?, it.right.known(&find)?);
            guard.push(Comparison { left, relation: it.relation, right });
        }
        let mut assignments: Vec<Assignment<W>> = Vec::new();
        for it in self.assignments {
            let target = find(it.target)?;
            if apart && assignments.iter().any(|before| before.target == target) {
                return Err(Why::Twice);
            }
            assignments.push(Assignment { target, sum: it.sum.known(&find)? });
        }
        Ok(Clauses { guard, assignments })
    }

    pub fn is_too_long(&self) -> bool {
        let compared = self.guard.iter().flat_map(|it| [&it.left, &it.right]);
        let mut sums = compared.chain(self.assignments.iter().map(|it| &it.sum));
        self.guard.len() > MOST
            || self.assignments.len() > MOST
            || sums.any(|sum| sum.0.len() > MOST)
    }
}

impl Sum<Variable> {
    fn value(&self, values: &Values) -> u32 {
        self.0.iter().fold(0, |sum: u32, (minus, term)| {
            let value = match *term {
                Term::Value(value) => value,
                Term::Of((comp, number)) => values[comp][number],
            };
            if *minus { sum.wrapping_sub(value) } else { sum.wrapping_add(value) }
        })
    }
}

impl Clauses<Variable> {
    pub fn holds(&self, values: &Values) -> bool {
        let holds = |it: &Comparison<Variable>| {
            it.relation.holds(it.left.value(values), it.right.value(values))
        };
        self.guard.iter().all(holds)
    }

    /// One after another.
    pub fn update(&self, values: &mut Values) {
        for it in &self.assignments {
            values[it.target.0][it.target.1] = it.sum.value(values);
        }
    }

    /// All at once.
    pub fn transfer(&self, values: &mut Values) {
        let sums: Vec<u32> = self.assignments.iter().map(|it| it.sum.value(values)).collect();
        for (it, sum) in self.assignments.iter().zip(sums) {
            values[it.target.0][it.target.1] = sum;
        }
    }
}
