//! Listings of calls by hand, `tests/vectors/*.txt`: a call, its words, its answer and a line of why.
//! `tests/vectors/README.md` has the format; the C test reads the same files.

use crate::oracle::answer::Answer;
use crate::oracle::call::{noise, Call};
use std::path::Path;
use std::{fs, str::FromStr};

/// A call of a listing, and what the listing says of it.
pub struct Entry {
    /// File and line.
    pub place: String,
    pub why: String,
    pub call: Call,
    pub answer: Answer,
    /// What the lent list may begin with; none if the listing leaves the reading open.
    pub written: Vec<Vec<u32>>,
}

/// The lists and numbers that stay until they are set again.
#[derive(Default)]
struct Settings {
    job: Vec<u32>,
    starts: Vec<u32>,
    facts: Vec<u32>,
    trial: Vec<u32>,
    action: u32,
    buffer: usize,
    length: usize,
}

/// The entries of all listings in the folder of vectors, in the order of their names.
pub fn all() -> Vec<Entry> {
    let folder = Path::new(env!("CARGO_MANIFEST_DIR")).join("../vectors");
    let files = fs::read_dir(&folder).expect("the folder of vectors").map(|file| file.expect("a file").path());
    let mut files: Vec<_> = files.filter(|path| path.extension().is_some_and(|end| end == "txt")).collect();
    files.sort();
    files.iter().flat_map(|path| entries(path)).collect()
}

/// The entries of one listing.
pub fn entries(path: &Path) -> Vec<Entry> {
    let name = path.file_name().expect("a file").to_string_lossy().into_owned();
    let text = fs::read_to_string(path).expect("a listing");
    let mut settings = Settings { buffer: 4096, length: 4098, ..Settings::default() };
    let mut entries: Vec<Entry> = vec![];
    let mut why = String::new();
    for (number, line) in text.lines().enumerate() {
        let place = format!("{name}:{}", number + 1);
        let (key, rest) = line.split_once(' ').unwrap_or((line, ""));
        match key {
            _ if line.trim().is_empty() || line.starts_with('#') => {}
            "case" => why = rest.to_string(),
            "or" => entries.last_mut().unwrap_or_else(|| panic!("{place}: no call before")).written.push(words(rest)),
            _ if settings.set(key, rest) => {}
            _ => entries.push(entry(&settings, key, rest, place, &why)),
        }
    }
    entries
}

impl Settings {
    /// Sets the list or number of that name, if there is one.
    fn set(&mut self, key: &str, rest: &str) -> bool {
        match key {
            "job" => self.job = words(rest),
            "starts" => self.starts = words(rest),
            "facts" => self.facts = words(rest),
            "trial" => self.trial = words(rest),
            "action" => self.action = words(rest)[0],
            "buffer" => self.buffer = number(rest),
            "length" => self.length = number(rest),
            _ => return false,
        }
        true
    }

    /// The trial's words cut or lengthened to the length that is lent.
    fn slice(&self) -> Vec<u32> {
        let mut slice = noise(&self.job, self.length);
        let given = self.trial.len().min(self.length);
        slice[..given].copy_from_slice(&self.trial[..given]);
        slice
    }

    fn call(&self, name: &str) -> Option<Call> {
        Some(match name {
            "check" => Call::check(&self.job, &self.starts, &self.facts),
            "fill" => Call::fill(&self.job, &self.starts, self.buffer),
            "find" => Call::find(&self.job, &self.starts, &self.facts, self.buffer),
            "trial_begin" => Call::trial_begin(&self.job, &self.slice()),
            "trial_start" => Call::trial_start(&self.job, &self.slice(), self.action),
            "trial_on" => Call::trial_on(&self.job, &self.slice()),
            "trial_show" => Call::trial_show(&self.job, &self.slice(), self.buffer),
            _ => return None,
        })
    }
}

/// The line `NAME NUMBER [at POSITION] [count COUNT] [writes WORDS]`.
fn entry(settings: &Settings, name: &str, rest: &str, place: String, why: &str) -> Entry {
    let call = settings.call(name).unwrap_or_else(|| panic!("{place}: no such call: {name}"));
    let (said, list) = rest.split_once(" writes").map_or((rest, None), |(said, list)| (said, Some(list)));
    let said: Vec<&str> = said.split_whitespace().collect();
    let named = |name: &str| said.iter().position(|&word| word == name).map_or(0, |place| number(said[place + 1]));
    let written: Vec<Vec<u32>> = list.map(words).into_iter().collect();
    let tells_length = matches!(call, Call::Fill { .. } | Call::Find { .. } | Call::TrialShow { .. });
    let length = written.first().map_or(0, |words| if tells_length { words.len() } else { 0 });
    let answer = Answer { number: number(said[0]), position: named("at"), length, count: named("count") };
    Entry { place, why: why.to_string(), call, answer, written }
}

fn number(text: &str) -> usize {
    usize::from_str(text.trim()).unwrap_or_else(|_| panic!("no number: {text}"))
}

/// Words in hexadecimal: `W`, `W*N` for N times W, `W+S*N` for N words from W on, each S more.
fn words(text: &str) -> Vec<u32> {
    let word = |text: &str| u32::from_str_radix(text, 16).unwrap_or_else(|_| panic!("no word: {text}"));
    let run = |item: &str| -> Vec<u32> {
        let (first, times) = item.split_once('*').map_or((item, 1), |(first, times)| (first, number(times)));
        let (first, step) = first.split_once('+').map_or((first, 0), |(first, step)| (first, word(step)));
        let first = word(first);
        (0..times as u32).map(|place| first.wrapping_add(place.wrapping_mul(step))).collect()
    };
    text.split_whitespace().flat_map(run).collect()
}

/// A call's lists as a listing has them, a trial cut after its first 40 words, another list after 300.
pub fn lists(call: &Call) -> String {
    let mut text = String::new();
    for (name, words) in call.lists() {
        let few: Vec<String> =
            words.iter().take(if name == "trial" { 40 } else { 300 }).map(|word| format!("{word:x}")).collect();
        let list = if name == "buffer" { words.len().to_string() } else { few.join(" ") };
        text.push_str(&format!("{name} {list}\n"));
    }
    if call.name().starts_with("trial") {
        text.push_str(&format!("length {}\n", call.list("trial").len()));
    }
    if let Call::TrialStart { action, .. } = call {
        text.push_str(&format!("action {action:x}\n"));
    }
    text
}

#[cfg(test)]
mod tests {
    use super::*;

    #[test]
    fn words_are_repeated_and_counted_on() {
        assert_eq!(words(" 90000000 7*2 fc0+40*3"), [0x9000_0000, 7, 7, 0xfc0, 0x1000, 0x1040]);
    }
}
