//! The built program.

use std::path::{Path, PathBuf};
use std::process::Command;
use std::sync::atomic::{AtomicUsize, Ordering};
use std::{env, fs};

/// Where the program is built, unless `PLANREAD` says otherwise.
fn program() -> PathBuf {
    match env::var_os("PLANREAD") {
        Some(path) => PathBuf::from(path),
        None => Path::new(env!("CARGO_MANIFEST_DIR")).join("../../target/bin/planread"),
    }
}

/// What the program prints in a folder.
pub fn printed_in(folder: &Path) -> String {
    let program = fs::canonicalize(program()).expect("the program is built");
    let output = Command::new(program).current_dir(folder).output().expect("the program runs");
    assert!(output.status.code().is_some(), "the program ends by itself");
    String::from_utf8(output.stdout).expect("plain text")
}

/// What the program prints in a new folder with these files; none is a file that is missing.
pub fn printed(job: Option<&[u8]>, plan: Option<&[u8]>) -> String {
    printed_after(|folder| {
        for (name, file) in [("job.w32", job), ("plan.w32", plan)] {
            if let Some(bytes) = file {
                fs::write(folder.join(name), bytes).expect("a new file");
            }
        }
    })
}

/// What the program prints in a new folder that was prepared so.
pub fn printed_after(prepare: impl FnOnce(&Path)) -> String {
    static NUMBER: AtomicUsize = AtomicUsize::new(0);
    let number = NUMBER.fetch_add(1, Ordering::Relaxed);
    let folder = env::temp_dir().join(format!("planread-test-{}-{number}", std::process::id()));
    fs::create_dir(&folder).expect("a folder of its own");
    prepare(&folder);
    let text = printed_in(&folder);
    fs::remove_dir_all(&folder).expect("the folder is ours");
    text
}
