//! A job in the making: its sections, each a list of narrow words, written narrow or wide at the end.

use crate::words::{self, field, form, kind};

/// The most fluents that a wide job has.
pub const MOST_FLUENTS: usize = 256;

#[derive(Clone, Debug, Default, PartialEq)]
pub struct Draft {
    pub fluents: usize,
    pub last: usize,
    pub initially: Vec<u32>,
    /// Each action word with its laws.
    pub actions: Vec<Vec<u32>>,
    /// Shift windows (L4), of any actions in any order.
    pub windows: Vec<u32>,
    /// Groups (L5), then the pairs of a group and an action.
    pub groups: Vec<u32>,
    pub pairs: Vec<u32>,
    pub formulas: Vec<u32>,
    /// Each node word with its members and conditions.
    pub nodes: Vec<Vec<u32>>,
    /// How the job is written wide (L6), if it is.
    pub wide: Option<Wide>,
}

/// The wide layout of a draft.
#[derive(Clone, Debug, Default, PartialEq)]
pub struct Wide {
    /// F of the wide job.
    pub fluents: usize,
    /// The wide number of each fluent of the draft, ascending.
    pub numbers: Vec<usize>,
    /// Wide words of kind 2 on other fluents.
    pub initially: Vec<u32>,
    /// Wide laws on other fluents, each with the number of its action.
    pub laws: Vec<(usize, u32)>,
    /// Wide formulas of form 1 behind the others.
    pub formulas: Vec<u32>,
}

/// A job in the making and starts of it. Those that are drawn are lawful; spoiled ones need not be.
#[derive(Clone, Debug, PartialEq)]
pub struct Drawn {
    pub draft: Draft,
    pub starts: Vec<u32>,
}

impl Draft {
    /// The job's words, narrow or wide; the head gives the number of actions that are there.
    pub fn words(&self) -> Vec<u32> {
        let (actions, last) = (self.actions.len(), self.last);
        let head = match &self.wide {
            Some(wide) => words::wide_head(wide.fluents, actions, last),
            None => words::head(self.fluents, actions, last),
        };
        let more = self.wide.clone().unwrap_or_default();
        let written = |word: &u32| self.wide.as_ref().map_or(*word, |wide| wide.word(*word));
        let mut job = [vec![head], more.initially].concat();
        job.extend(self.initially.iter().map(written));
        for (number, action) in self.actions.iter().enumerate() {
            job.extend(action.iter().map(written));
            job.extend(more.laws.iter().filter(|(of, _)| *of == number).map(|(_, law)| law));
        }
        let others = [&self.windows, &self.groups, &self.pairs, &self.formulas];
        job.extend(others.into_iter().flatten().map(written));
        job.extend(&more.formulas);
        job.extend(self.nodes.iter().flatten());
        job
    }

    /// How long an action lasts.
    pub fn duration(&self, action: usize) -> usize {
        field(self.actions[action][0], 5, 0)
    }
}

impl Wide {
    /// The wide word of a narrow one.
    fn word(&self, word: u32) -> u32 {
        let wide = |fluent: usize| self.numbers.get(fluent).copied().unwrap_or(MOST_FLUENTS - 1);
        match (kind(word), form(word)) {
            (2, _) => words::wide_initially(wide(field(word, 5, 0)), field(word, 6, 6) == 0),
            (4, _) => words::wide_law(field(word, 7, 6), wide(field(word, 5, 0))),
            (5, 1) => words::wide_fluent(wide(field(word, 11, 6))),
            _ => word,
        }
    }
}
