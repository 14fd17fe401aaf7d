//! Instructions, counted by callgrind: this program runs itself under valgrind, once for each share of the figures, the shares side by side.
use crate::figures::{figures, Figure, Part};
use crate::library::Answer;
use std::hint::black_box;
use std::process::Command;
use std::thread;

/// The first argument of a run that is counted.
pub const COUNTED: &str = "counted";

/// How many runs share the figures. The number is fixed, so that each run does the same on every machine.
const SHARES: usize = 2;

/// Callgrind counts within `counted_call` alone, and writes the sum to the standard output after each call.
const TOOL: [&str; 6] = [
    "--tool=callgrind",
    "--callgrind-out-file=/dev/stdout",
    "--combine-dumps=yes",
    "--collect-atstart=no",
    "--toggle-collect=counted_call",
    "--dump-after=counted_call",
];

/// The C library copies and fills memory by the same instructions on every machine, and not by `rep stosb`, of which callgrind would count
/// each byte.
const TUNABLES: &str =
    "glibc.cpu.hwcaps=-AVX2,-AVX512F,-AVX512VL,-AVX512BW,-AVX_Fast_Unaligned_Load,-SSSE3,-ERMS,-FSRM";

impl Part {
    fn name(self) -> &'static str {
        match self {
            Part::Gate => "gate",
            Part::All => "all",
        }
    }
}

/// The instructions of each figure, in their order.
pub fn counts(part: Part) -> Result<Vec<u64>, String> {
    let runs: Vec<Vec<u64>> = thread::scope(|scope| {
        let runs: Vec<_> = (0..SHARES).map(|share| scope.spawn(move || share_counts(part, share))).collect();
        runs.into_iter().map(|run| run.join().expect("a run ends")).collect::<Result<_, _>>()
    })?;
    let count = runs.iter().map(Vec::len).sum();
    Ok((0..count).map(|i| runs[i % SHARES][i / SHARES]).collect())
}

/// The instructions of every figure of a share.
fn share_counts(part: Part, share: usize) -> Result<Vec<u64>, String> {
    let program = std::env::current_exe().map_err(|error| error.to_string())?;
    let mut valgrind = Command::new("valgrind");
    valgrind.args(TOOL).arg(program).args([COUNTED, part.name(), &share.to_string()]).env("GLIBC_TUNABLES", TUNABLES);
    let output = valgrind.output().map_err(|_| "valgrind missing: Debian package valgrind".to_string())?;
    let told = String::from_utf8_lossy(&output.stdout);
    let mut sums: Vec<u64> =
        told.lines().filter_map(|line| line.strip_prefix("summary: ")).filter_map(|sum| sum.parse().ok()).collect();
    // the last sum is what follows the last call, which is not counted
    if !output.status.success() || sums.pop() != Some(0) || sums.len() != shared(part, share).len() {
        return Err(format!("callgrind failed:\n{}", String::from_utf8_lossy(&output.stderr)));
    }
    Ok(sums)
}

fn shared(part: Part, share: usize) -> Vec<Figure> {
    figures(part).into_iter().skip(share).step_by(SHARES).collect()
}

/// The run that is counted.
pub fn run(part: &str, share: &str) -> bool {
    let part = if part == Part::All.name() { Part::All } else { Part::Gate };
    for figure in shared(part, share.parse().expect("a share")) {
        counted_call(&mut *figure.ready());
    }
    true
}

/// The only function whose instructions count, with what it calls. Callgrind knows it by this name.
#[no_mangle]
#[inline(never)]
fn counted_call(call: &mut dyn FnMut() -> Answer) -> Answer {
    black_box(call())
}
