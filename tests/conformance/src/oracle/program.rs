//! Document 01, "The program": what `planread` prints for two files.

use crate::oracle::answer::Answer;
use crate::oracle::plan::{find, no_reading, Outcome};
use crate::oracle::readings::decision::Decision;
use crate::oracle::readings::literal::{is_reading, Triple};
use crate::oracle::readings::world::World;
use crate::words::kind;

/// "A missing file, one above 32 KiB"
pub const MOST_BYTES: usize = 32 * 1024;

/// What is to be printed.
pub enum Printed {
    /// This line alone.
    Line(String),
    /// The line of any reading of the root, and the reading.
    Reading { world: Box<World>, decision: Decision },
}

/// The output for the two files' bytes, of which none is a file that can't be read; none if a task set has more
/// placements than are tried.
pub fn planread(job: Option<&[u8]>, plan: Option<&[u8]>) -> Option<Printed> {
    let (Some(job), Some(plan)) = (words_of(job), words_of(plan)) else {
        return Some(Printed::Line("bad file\n".to_string()));
    };
    // "leading kind 9 words are starts, the rest facts"
    let starts = plan.iter().take_while(|&&word| kind(word) == 9).count();
    Some(match find(&job, &plan[..starts], &plan[starts..], 4_096)? {
        Outcome::Refused(refusal) => refused(Answer::refused(refusal)),
        Outcome::NoReading { decision } => refused(no_reading(&decision)),
        Outcome::Read { world, decision } => Printed::Reading { world: Box::new(world), decision },
    })
}

/// "`refused 13 at 0 triples 2`: number, position, count."
fn refused(answer: Answer) -> Printed {
    Printed::Line(format!("refused {} at {} triples {}\n", answer.number, answer.position, answer.count))
}

/// "four bytes, lowest first"; none for a bad file.
fn words_of(file: Option<&[u8]>) -> Option<Vec<u32>> {
    let bytes = file?;
    if bytes.len() > MOST_BYTES || bytes.len() % 4 != 0 {
        return None;
    }
    let word = |four: &[u8]| u32::from_le_bytes([four[0], four[1], four[2], four[3]]);
    Some(bytes.chunks(4).map(word).collect())
}

/// A list of words as a file.
pub fn file_of(words: &[u32]) -> Vec<u8> {
    words.iter().flat_map(|word| word.to_le_bytes()).collect()
}

impl Printed {
    /// Whether this text is what is to be printed, or a lawful choice of it.
    pub fn agrees(&self, text: &str) -> bool {
        match self {
            Printed::Line(line) => text == line,
            Printed::Reading { world, decision } => {
                let root = Triple { node: world.root(), begin: 0, end: world.last() };
                let reading = printed_words(text);
                is_reading(world, &reading, root) && text == reading_text(&reading, decision.count())
            }
        }
    }
}

/// The words on the lines after the first.
fn printed_words(text: &str) -> Vec<u32> {
    text.lines().skip(1).filter_map(|line| u32::from_str_radix(line, 16).ok()).collect()
}

/// "prints one line, then the reading, one word a line as eight lower-case hexadecimal digits"
fn reading_text(reading: &[u32], count: usize) -> String {
    let words: String = reading.iter().map(|word| format!("{word:08x}\n")).collect();
    format!("read {} triples {count}\n{words}", reading.len())
}
