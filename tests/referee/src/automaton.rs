//! From a regular expression to a table-driven deterministic automaton.

use crate::regex::{ByteSet, Regex};
use std::collections::HashMap;

/// The entry of the table that means "no layout text goes on like this".
const STUCK: u32 = u32::MAX;

/// A deterministic automaton in which an end can be reached from every state.
pub struct Automaton {
    /// The next state for `state * 256 + byte`, or `STUCK`.
    table: Vec<u32>,
    accepting: Vec<bool>,
}

impl Automaton {
    /// Builds the automaton that accepts exactly the texts of the expression.
    pub fn new(regex: &Regex) -> Automaton {
        let mut automaton = Nfa::new(regex).determinise();
        automaton.trim();
        automaton
    }

    /// How many states there are.
    pub fn states(&self) -> usize {
        self.accepting.len()
    }

    /// Accepts the input, or gives the length of its longest beginning that
    /// also begins some accepted text.
    pub fn run(&self, input: &[u8]) -> Result<(), usize> {
        let mut state = 0;
        for (place, &byte) in input.iter().enumerate() {
            state = self.table[state as usize * 256 + usize::from(byte)];
            if state == STUCK {
                return Err(place);
            }
        }
        if self.accepting[state as usize] {
            Ok(())
        } else {
            Err(input.len())
        }
    }

    /// Says of each state whether an end can be reached from it.
    pub fn can_end(&self) -> Vec<bool> {
        let mut sources = vec![Vec::new(); self.states()];
        for (from, row) in self.table.chunks(256).enumerate() {
            for &to in row.iter().filter(|&&to| to != STUCK) {
                sources[to as usize].push(from);
            }
        }
        let mut can_end = self.accepting.clone();
        let mut waiting: Vec<usize> = (0..self.states()).filter(|&s| can_end[s]).collect();
        while let Some(state) = waiting.pop() {
            for &source in &sources[state] {
                if !can_end[source] {
                    can_end[source] = true;
                    waiting.push(source);
                }
            }
        }
        can_end
    }

    /// Cuts off every state from which no end can be reached.
    fn trim(&mut self) {
        let can_end = self.can_end();
        for to in &mut self.table {
            if *to != STUCK && !can_end[*to as usize] {
                *to = STUCK;
            }
        }
    }
}

/// A nondeterministic automaton; its start is state 0.
struct Nfa {
    states: Vec<NfaState>,
    end: usize,
}

#[derive(Default)]
struct NfaState {
    /// Steps that read one byte.
    moves: Vec<(ByteSet, usize)>,
    /// Steps that read nothing.
    silent: Vec<usize>,
}

impl Nfa {
    fn new(regex: &Regex) -> Nfa {
        let mut nfa = Nfa {
            states: vec![NfaState::default()],
            end: 0,
        };
        nfa.end = nfa.add(regex, 0);
        nfa
    }

    fn fresh(&mut self) -> usize {
        self.states.push(NfaState::default());
        self.states.len() - 1
    }

    /// Adds the expression from the given state on and gives its last state.
    fn add(&mut self, regex: &Regex, from: usize) -> usize {
        match regex {
            Regex::One(set) => {
                let to = self.fresh();
                self.states[from].moves.push((*set, to));
                to
            }
            Regex::Sequence(parts) => parts.iter().fold(from, |at, part| self.add(part, at)),
            Regex::Choice(parts) => {
                let to = self.fresh();
                for part in parts {
                    let end = self.add(part, from);
                    self.states[end].silent.push(to);
                }
                to
            }
            Regex::Plus(part) => {
                // A state of its own, so that the way back leads only into this part.
                let start = self.fresh();
                self.states[from].silent.push(start);
                let end = self.add(part, start);
                self.states[end].silent.push(start);
                end
            }
        }
    }

    /// All states reachable by silent steps, sorted.
    fn closure(&self, mut waiting: Vec<usize>) -> Vec<usize> {
        let mut reached = waiting.clone();
        while let Some(state) = waiting.pop() {
            for &next in &self.states[state].silent {
                if !reached.contains(&next) {
                    reached.push(next);
                    waiting.push(next);
                }
            }
        }
        reached.sort_unstable();
        reached
    }

    /// The subset construction.
    fn determinise(&self) -> Automaton {
        let start = self.closure(vec![0]);
        let mut numbers = HashMap::from([(start.clone(), 0)]);
        let mut subsets = vec![start];
        let mut automaton = Automaton {
            table: Vec::new(),
            accepting: Vec::new(),
        };
        while automaton.states() < subsets.len() {
            let subset = subsets[automaton.states()].clone();
            automaton.accepting.push(subset.contains(&self.end));
            let moves: Vec<&(ByteSet, usize)> = subset
                .iter()
                .flat_map(|&state| &self.states[state].moves)
                .collect();
            let mut last_targets = Vec::new();
            let mut number = STUCK;
            for byte in 0..=255 {
                let moved = moves.iter().filter(|(set, _)| set.contains(byte));
                let targets = moved.map(|&&(_, to)| to);
                // Neighbouring bytes mostly lead to the same places.
                if !targets.clone().eq(last_targets.iter().copied()) {
                    last_targets = targets.collect();
                    number = if last_targets.is_empty() {
                        STUCK
                    } else {
                        let next = self.closure(last_targets.clone());
                        *numbers.entry(next).or_insert_with_key(|next| {
                            subsets.push(next.clone());
                            subsets.len() as u32 - 1
                        })
                    };
                }
                automaton.table.push(number);
            }
        }
        automaton
    }
}
