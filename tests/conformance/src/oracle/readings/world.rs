//! What readings are read from: the program, the starts, and the formulas' values at each moment.

use crate::oracle::formulas::{values, Value};
use crate::oracle::job::{Job, Node};
use crate::oracle::plan::Plan;
use crate::oracle::starts::Start;

pub struct World {
    pub job: Job,
    pub starts: Vec<Start>,
    /// By moment, then by formula.
    values: Vec<Vec<Value>>,
}

impl World {
    pub fn new(plan: &Plan) -> World {
        World { job: plan.job.clone(), starts: plan.starts.clone(), values: values(&plan.job, &plan.states) }
    }

    /// n
    pub fn last(&self) -> usize {
        self.job.last
    }

    pub fn node(&self, number: usize) -> &Node {
        &self.job.nodes[number]
    }

    /// "The last node is the root."
    pub fn root(&self) -> usize {
        self.job.nodes.len() - 1
    }

    /// Whether any action starts at that moment.
    pub fn starts_at(&self, moment: usize) -> bool {
        self.starts.iter().any(|start| start.moment == moment)
    }

    pub fn value(&self, formula: usize, moment: usize) -> Value {
        self.values[moment][formula]
    }

    pub fn holds(&self, formula: usize, moment: usize) -> bool {
        self.value(formula, moment) == Value::Holds
    }

    pub fn fails(&self, formula: usize, moment: usize) -> bool {
        self.value(formula, moment) == Value::Fails
    }
}
