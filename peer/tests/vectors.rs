//! Every day file of the vectors: the programs' tape, refusals and facts, byte for byte; every tape: what is read of it.
//! The day files stand in crates/vectors/data, the tapes in crates/tapes/data, each with its answers beside it; VECTORS names
//! another folder of day files, with the tapes in the folder tapes beside that.

use std::fs::{read, File};
use std::path::{Path, PathBuf};
use std::process::{Command, Output};

fn run(program: &str, arguments: &[&str], file: &Path) -> Output {
    let input = File::open(file).expect("the file opens");
    let output = Command::new(program).args(arguments).stdin(input).output().expect("the program runs");
    assert!(output.status.success(), "{program} on {}", file.display());
    output
}

/// Standard output, where nothing went to standard error.
fn alone(output: Output) -> Vec<u8> {
    assert!(output.stderr.is_empty(), "standard error: {}", String::from_utf8_lossy(&output.stderr));
    output.stdout
}

fn same(found: &[u8], file: PathBuf) {
    let expected = read(&file).unwrap_or_else(|error| panic!("{}: {error}", file.display()));
    let place = found.iter().zip(&expected).take_while(|(a, b)| a == b).count();
    assert!(found == expected, "{}: differs at byte {place}", file.display());
}

/// The folders of the day files and of the tapes.
fn folders() -> (PathBuf, PathBuf) {
    match std::env::var_os("VECTORS").map(PathBuf::from) {
        Some(days) => (days.clone(), days.with_file_name("tapes")),
        None => {
            let crates = Path::new(env!("CARGO_MANIFEST_DIR")).join("../crates");
            (crates.join("vectors/data"), crates.join("tapes/data"))
        }
    }
}

/// The folder's files with an extension, at least one.
fn files(folder: &Path, extension: &str) -> Vec<PathBuf> {
    let entries = std::fs::read_dir(folder).unwrap_or_else(|error| panic!("no folder {}: {error}", folder.display()));
    let mut files: Vec<PathBuf> = entries.map(|entry| entry.unwrap().path()).collect();
    files.retain(|file| file.extension().is_some_and(|found| found == extension));
    files.sort();
    assert!(!files.is_empty(), "no .{extension} in {}", folder.display());
    files
}

fn count_lines(text: &[u8]) -> usize {
    text.split_inclusive(|&byte| byte == b'\n').count()
}

#[test]
fn day_files() {
    let files = files(&folders().0, "day");
    let mut lines = 0;
    for day in &files {
        let output = run(env!("CARGO_BIN_EXE_day"), &[], day);
        same(&output.stdout, day.with_extension("tape"));
        same(&output.stderr, day.with_extension("refused"));
        same(&alone(run(env!("CARGO_BIN_EXE_facts"), &[], day)), day.with_extension("facts"));
        lines += count_lines(&read(day).unwrap());
    }
    println!("{} day files, {lines} lines: tape, refusals and facts agree", files.len());
}

/// Without --facts a line is the first twenty columns of one with it.
#[test]
fn tapes() {
    let files = files(&folders().1, "tape");
    let mut prints = 0;
    for tape in &files {
        let told = alone(run(env!("CARGO_BIN_EXE_read"), &["--facts"], tape));
        same(&told, tape.with_extension("read"));
        let lines = told.split_inclusive(|&byte| byte == b'\n');
        let short: Vec<u8> = lines.flat_map(|line| [&line[..20], b"\n"].concat()).collect();
        assert!(alone(run(env!("CARGO_BIN_EXE_read"), &[], tape)) == short, "{}", tape.display());
        prints += count_lines(&told);
    }
    println!("{} tapes, {prints} prints and refusals: place, length, name and facts agree", files.len());
}
