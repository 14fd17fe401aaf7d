//! A task set whose members read between moments chosen freely, n = 63: as text, and as a job with starts.
use crate::shapes::nodes::Nodes;
use crate::words::{action, condition, formula, head, initially, law, node, start};

/// Reads from each b of `begins` to each e of `ends` with b + least ≤ e ≤ b + most.
#[derive(Clone)]
pub struct Span {
    pub begins: u64,
    pub ends: u64,
    pub least: usize,
    pub most: usize,
}

/// Form, formula, i, j, M, N. Fields that the form doesn't use are 0.
pub type Condition = [usize; 6];

#[derive(Clone, Default)]
pub struct Set {
    /// Each member reads as one of its spans does.
    pub members: Vec<Vec<Span>>,
    pub conditions: Vec<Condition>,
    /// By formula: the moments at which it holds.
    pub moments: Vec<u64>,
}

impl Set {
    /// The set of some lines of slowest.txt.
    pub fn read(lines: &str) -> Set {
        let mut set = Set::default();
        for line in lines.lines() {
            let (name, rest) = line.split_once(' ').expect("a line has a name");
            let parts = rest.split(", ").map(|part| part.split(' ').collect::<Vec<_>>());
            match name {
                "member" => set.members.push(parts.map(|words| read_span(&words)).collect()),
                "conditions" => set.conditions = parts.map(|words| std::array::from_fn(|i| number(words[i]))).collect(),
                _ => set.moments = rest.split(' ').map(moments).collect(),
            }
        }
        set
    }

    pub fn listing(&self) -> String {
        let span = |s: &Span| format!("{} {} {} {}", written(s.begins), written(s.ends), s.least, s.most);
        let member = |spans: &Vec<Span>| format!("member {}\n", joined(spans, span, ", "));
        let condition = |fields: &Condition| joined(fields, usize::to_string, " ");
        let conditions = joined(&self.conditions, condition, ", ");
        let moments = joined(&self.moments, |&moments| written(moments), " ");
        format!("{}conditions {conditions}\nmoments {moments}", joined(&self.members, member, ""))
    }

    /// The job of the set, and the starts by which its formulas hold at their moments.
    pub fn words(&self) -> (Vec<u32>, Vec<u32>) {
        let (mut nodes, mut fluents) = (Nodes::after(vec![]), vec![]);
        let members: Vec<usize> =
            self.members.iter().map(|spans| add_member(&mut nodes, &mut fluents, spans)).collect();
        let conditions = self.conditions.iter().map(|&[form, formula, i, j, m, n]| {
            let formula = if form < 2 { 0 } else { holding(&mut fluents, self.moments[formula]) };
            condition(form, formula, i, j, m, n)
        });
        let conditions: Vec<u32> = conditions.collect();
        nodes.set(&members, &conditions);
        (job(&fluents, nodes.words), starts(&fluents))
    }
}

fn number(word: &str) -> usize {
    word.parse().expect("a number")
}

fn moments(word: &str) -> u64 {
    match word {
        "all" => u64::MAX,
        _ => u64::from_str_radix(word, 16).expect("a set of moments"),
    }
}

fn written(moments: u64) -> String {
    match moments {
        u64::MAX => "all".to_string(),
        _ => format!("{moments:x}"),
    }
}

fn read_span(words: &[&str]) -> Span {
    Span { begins: moments(words[0]), ends: moments(words[1]), least: number(words[2]), most: number(words[3]) }
}

fn joined<T>(list: &[T], text: impl Fn(&T) -> String, between: &str) -> String {
    list.iter().map(text).collect::<Vec<_>>().join(between)
}

/// The formula that holds at these moments: 0 holds always, and each other one says that a fluent of its own is true.
fn holding(fluents: &mut Vec<u64>, moments: u64) -> usize {
    if moments == u64::MAX {
        return 0;
    }
    let known = fluents.iter().position(|&fluent| fluent == moments);
    1 + known.unwrap_or_else(|| {
        fluents.push(moments);
        fluents.len() - 1
    })
}

/// Adds a choice of the spans.
fn add_member(nodes: &mut Nodes, fluents: &mut Vec<u64>, spans: &[Span]) -> usize {
    let mut whole = add_span(nodes, fluents, &spans[0]);
    for span in &spans[1..] {
        let other = add_span(nodes, fluents, span);
        whole = nodes.add(node(3, whole, other, 0, 0), &[]);
    }
    whole
}

/// Adds a start window of two tests: it may wait while others start, which an end window may not.
fn add_span(nodes: &mut Nodes, fluents: &mut Vec<u64>, span: &Span) -> usize {
    let [x, y] = [span.begins, span.ends].map(|moments| nodes.test(holding(fluents, moments)));
    nodes.add(node(6, x, y, span.least, span.most), &[])
}

/// Fluent f is known true at 0 if it is to hold then, else open; action 2 f makes it true, 2 f + 1 false.
fn job(fluents: &[u64], nodes: Vec<u32>) -> Vec<u32> {
    let count = fluents.len();
    let known = (0..count).filter(|&f| fluents[f] & 1 == 1).map(|f| initially(f, true));
    let actions = (0..2 * count).flat_map(|a| [action(a, 1), law(2 + a % 2, a / 2)]);
    let none = (count == 0).then(|| action(0, 1));
    let formulas = [formula(0, 0, 0)].into_iter().chain((0..count).map(|f| formula(1, f, 0)));
    let first = [head(count.max(1), (2 * count).max(1), 63)].into_iter();
    first.chain(known).chain(actions).chain(none).chain(formulas).chain(nodes).collect()
}

/// A start one moment before each change of a fluent.
fn starts(fluents: &[u64]) -> Vec<u32> {
    let held = |f: usize, t: usize| fluents[f] >> t & 1 == 1;
    let changes = |t: usize| (0..fluents.len()).filter(move |&f| held(f, t) != held(f, t - 1));
    (1..=63).flat_map(|t| changes(t).map(move |f| start(t - 1, 2 * f + usize::from(!held(f, t))))).collect()
}
