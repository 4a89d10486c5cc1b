//! Guards and assignments as sums of factors and variables, which stand one after another.

use std::ops::Range;

use crate::expressions::{Clauses, Relation, Sum, Term, Variable};

/// The values of all variables: variable `v` of component `c` has place `8 c + v`.
pub type Values = [u32];

#[derive(Clone, Copy)]
struct Linear {
    constant: u32,
    first: u32,
    last: u32,
}

struct Comparison {
    left: Linear,
    relation: Relation,
    right: Linear,
}

struct Assignment {
    target: usize,
    sum: Linear,
}

/// Where the parts of some clauses stand.
#[derive(Clone, Default)]
pub struct Part {
    guard: Range<usize>,
    assignments: Range<usize>,
}

impl Part {
    pub fn is_empty(&self) -> bool {
        self.guard.is_empty() && self.assignments.is_empty()
    }
}

#[derive(Default)]
pub struct Sums {
    terms: Vec<(u32, u32)>,
    comparisons: Vec<Comparison>,
    assignments: Vec<Assignment>,
}

fn place(variable: Variable) -> usize {
    variable.0 * 8 + variable.1
}

impl Sums {
    pub fn add(&mut self, clauses: &Clauses<Variable>) -> Part {
        let (compared, assigned) = (self.comparisons.len(), self.assignments.len());
        for it in &clauses.guard {
            let (left, right) = (self.linear(&it.left), self.linear(&it.right));
            self.comparisons.push(Comparison { left, relation: it.relation, right });
        }
        for it in &clauses.assignments {
            let sum = self.linear(&it.sum);
            self.assignments.push(Assignment { target: place(it.target), sum });
        }
        Part {
            guard: compared..self.comparisons.len(),
            assignments: assigned..self.assignments.len(),
        }
    }

    fn linear(&mut self, sum: &Sum<Variable>) -> Linear {
        let first = self.terms.len() as u32;
        let mut constant = 0_u32;
        for (minus, term) in &sum.0 {
            let factor = if *minus { u32::MAX } else { 1 };
            match *term {
                Term::Value(value) => {
                    constant = constant.wrapping_add(value.wrapping_mul(factor));
                }
                Term::Of(variable) => self.terms.push((factor, place(variable) as u32)),
            }
        }
        Linear { constant, first, last: self.terms.len() as u32 }
    }

    #[inline(always)]
    fn value(&self, sum: Linear, values: &Values) -> u32 {
        let terms = &self.terms[sum.first as usize..sum.last as usize];
        terms.iter().fold(sum.constant, |sum, (factor, place)| {
            sum.wrapping_add(factor.wrapping_mul(values[*place as usize]))
        })
    }

    #[inline(always)]
    pub fn holds(&self, part: &Part, values: &Values) -> bool {
        self.comparisons[part.guard.clone()]
            .iter()
            .all(|it| it.relation.holds(self.value(it.left, values), self.value(it.right, values)))
    }

    /// One after another.
    #[inline(always)]
    pub fn update(&self, part: &Part, values: &mut Values) {
        for it in &self.assignments[part.assignments.clone()] {
            values[it.target] = self.value(it.sum, values);
        }
    }

    /// All at once.
    #[inline(always)]
    pub fn transfer(&self, part: &Part, values: &mut Values) {
        let assignments = &self.assignments[part.assignments.clone()];
        let mut sums = [0; 16];
        for (sum, it) in sums.iter_mut().zip(assignments) {
            *sum = self.value(it.sum, values);
        }
        for (sum, it) in sums.iter().zip(assignments) {
            values[it.target] = *sum;
        }
    }
}
