//! Jobs with as many end windows as there is room for, over rows of many ends: in plans with few starts, with many, and with the most.
use super::nodes::Nodes;
use crate::plans::{self, largest_wide, lawful, wide_before_formulas, Plan};
use crate::words::{action, formula, head, kind, node, start};

/// Formula 0 always holds.
pub fn small() -> [Plan; 3] {
    let job = chain(30, vec![head(1, 1, 63), action(0, 1), formula(0, 0, 0)]);
    [("no starts", 0..0), ("one start, at 61", 61..62), ("a start at every moment", 0..63)].map(|(name, moments)| {
        let starts = moments.map(|u| start(u, 0)).collect();
        lawful(format!("30 end windows, {name}"), job.clone(), starts)
    })
}

/// The largest plans of check, 4,032 starts, in jobs of 2,048 words: the narrow one has after the actions two formulas that always hold, and
/// this procedure; of the wide one 62 words are a formula and the 61 nodes of this procedure.
pub fn largest() -> Vec<Plan> {
    let Plan { job, starts, .. } = plans::largest(1);
    let before_formulas = job.into_iter().take_while(|&word| kind(word) < 5);
    let narrow = chain(29, before_formulas.chain([formula(0, 0, 0); 2]).collect());
    let wide = chain(29, [wide_before_formulas(1, 62), vec![formula(0, 0, 0)]].concat());
    let wide = lawful("29 end windows, wide, 4,032 starts", wide, largest_wide(1).starts);
    vec![lawful("29 end windows, 4,032 starts", narrow, starts), wide]
}

/// A node that reads from every moment to every later one, whatever starts in between; over it so many end windows, each of the one before
/// and a test: pauses of 0 to 63, the root's of 1 to 63. So each row has all ends. Where nothing starts, any pause will do. With a start at
/// 61 a pause ends by 61 or begins after it: find writes a reading whose first node reads from 0 to 62, and no end before that leads on.
/// Where an action starts at every moment, all pauses are 0, and the root has no reading.
fn chain(windows: usize, before_nodes: Vec<u32>) -> Vec<u32> {
    let mut nodes = Nodes::after(before_nodes);
    let mut whole = nodes.span(0, 63);
    for left in (0..windows).rev() {
        let test = nodes.test(0);
        let least = usize::from(left == 0);
        whole = nodes.add(node(7, whole, test, least, 63), &[]);
    }
    nodes.words
}
