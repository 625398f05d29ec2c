//! The paper, part three: runs (docs/REQUIREMENT.md, section 4). An object is accepted in *some* order of its pairs, so orders are tried.

use crate::book::{Book, Edge, Form, Kind, RULES};
use crate::frames::Rules;
use crate::plant::{on, Plant};
use crate::text::Value;
use std::collections::HashSet;

/// Objects with more pairs than this are searched with a memory of what was tried.
const PLAIN_PAIRS: usize = 6;

/// True where the value has an accepting run of rule 0; a scalar root is invalid.
pub fn valid<R: Rules>(judge: &R, value: &Value) -> bool {
    let scalar = !matches!(value, Value::Arr(_) | Value::Obj(_));
    rules(judge, value) & 1 == 1 || on(Plant::ScalarRoot) && scalar
}

/// The rules that have an accepting run over the value: bit n for rule n.
fn rules<R: Rules>(judge: &R, value: &Value) -> u32 {
    let fitted: Vec<u32> = match value {
        Value::Arr(list) => list.iter().map(|v| rules(judge, v)).collect(),
        Value::Obj(pairs) => pairs.iter().map(|(_, v)| rules(judge, v)).collect(),
        _ => return 0,
    };
    judge.accepting(value, &fitted)
}

/// The same of a book, where the rules over each inner value are known.
pub fn accepting(book: &Book, value: &Value, fitted: &[u32]) -> u32 {
    let mut found = 0;
    let form = if let Value::Arr(_) = value { Form::Arr } else { Form::Obj };
    for rule in 0..RULES {
        let other = on(Plant::FormNotAsked) && fitted.is_empty() && form == Form::Arr && book.forms[rule].is_some();
        if book.forms[rule] != Some(form) && !other {
            continue;
        }
        let accepted = match value {
            Value::Arr(list) => reached(book, rule, list, fitted).iter().any(|&state| end(book, rule, state)),
            Value::Obj(pairs) => object(book, rule, pairs, fitted),
            _ => false,
        };
        found |= u32::from(accepted) << rule;
    }
    found
}

/// `num` fits any number, `int` one whose value is whole, `rN` what rule N has an accepting run over.
pub fn fits(kind: Kind, value: &Value, fitted: u32) -> bool {
    match (kind, value) {
        (Kind::Null, Value::Null) | (Kind::True, Value::True) | (Kind::False, Value::False) => true,
        (Kind::Str, Value::Str) => true,
        (Kind::Num, Value::Num { whole }) => !whole || !on(Plant::NumNotInt),
        (Kind::Int, Value::Num { whole }) => *whole,
        (Kind::Rule(n), _) => fitted >> n & 1 == 1,
        _ => false,
    }
}

fn end(book: &Book, rule: usize, state: usize) -> bool {
    book.ends[rule][state] || on(Plant::NoEndAsked)
}

/// One edge for each element, in the written order: the set of states reached, from state 0.
pub fn reached(book: &Book, rule: usize, list: &[Value], fitted: &[u32]) -> HashSet<usize> {
    let mut states = HashSet::from([0]);
    for (value, &fitted) in list.iter().zip(fitted) {
        let mut reached = HashSet::new();
        for &state in &states {
            let most = if on(Plant::FirstEdge) { 1 } else { usize::MAX };
            let taken = book.edges(rule, state).iter().filter(|edge| fits(edge.kind, value, fitted));
            reached.extend(taken.take(most).map(|edge| edge.next));
        }
        states = reached;
    }
    states
}

/// One edge for each pair, in some order of the pairs.
fn object(book: &Book, rule: usize, pairs: &[(Vec<u8>, Value)], fitted: &[u32]) -> bool {
    let mut search = Search { book, rule, pairs, fitted, tried: HashSet::new() };
    let mut used = vec![false; pairs.len()];
    if on(Plant::LastPairWins) {
        for i in 0..pairs.len() {
            used[i] = pairs[i + 1..].iter().any(|(key, _)| *key == pairs[i].0);
        }
    }
    if on(Plant::PairSkipped) {
        for (i, (key, _)) in pairs.iter().enumerate() {
            used[i] = !book.keys.contains(key);
        }
    }
    search.accepts(&mut used, 0)
}

struct Search<'a> {
    book: &'a Book,
    rule: usize,
    pairs: &'a [(Vec<u8>, Value)],
    fitted: &'a [u32],
    /// Pairs used and state, of searches that found no accepting run.
    tried: HashSet<(Vec<bool>, usize)>,
}

impl Search<'_> {
    /// True where some order of the unused pairs leads from `state` to an end state.
    fn accepts(&mut self, used: &mut Vec<bool>, state: usize) -> bool {
        let Some(first) = used.iter().position(|&u| !u) else { return end(self.book, self.rule, state) };
        let memory = self.pairs.len() > PLAIN_PAIRS;
        if memory && on(Plant::ManyPairs) {
            return false;
        }
        if memory && !self.tried.insert((used.clone(), state)) {
            return false;
        }
        let last = if on(Plant::WrittenOrder) { first + 1 } else { self.pairs.len() };
        for next_pair in first..last {
            if !used[next_pair] && self.takes(used, state, next_pair) {
                return true;
            }
        }
        false
    }

    /// True where an accepting run goes on with this pair.
    fn takes(&mut self, used: &mut Vec<bool>, state: usize, pair: usize) -> bool {
        let (key, value) = &self.pairs[pair];
        let book = self.book;
        let edges: Vec<&Edge> = book.edges(self.rule, state).iter().filter(|edge| edge.key == *key).collect();
        for edge in edges {
            if fits(edge.kind, value, self.fitted[pair]) {
                used[pair] = true;
                let accepted = self.accepts(used, edge.next);
                used[pair] = false;
                if accepted {
                    return true;
                }
            }
        }
        false
    }
}
