//! Arguments that the programs do not take are errors, said before anything is measured or counted.

use std::io::Write;
use std::process::{Command, Stdio};

/// Expects status 2, a line of usage and nothing on standard output.
fn refused(program: &str, words: &[&str]) {
    let output = Command::new(program).args(words).stdin(Stdio::null()).output().expect("the program runs");
    assert_eq!(output.status.code(), Some(2), "{words:?}");
    assert!(output.stdout.is_empty() && output.stderr.starts_with(b"usage: "), "{words:?}");
}

#[test]
fn a_mistyped_seed_is_an_error() {
    for words in [&["2o261115"][..], &["-1"], &[""], &["20261115 "], &["1", "2"], &["18446744073709551616"]] {
        refused(env!("CARGO_BIN_EXE_bench"), words);
        refused(env!("CARGO_BIN_EXE_bench"), &[&["process"], words].concat());
    }
    for words in [&["process"][..], &["listing", "1"], &["listing", "book.ntb"], &["process", "1", "2"]] {
        refused(env!("CARGO_BIN_EXE_bench"), words);
    }
}

#[test]
fn other_readings_and_times_are_errors() {
    for words in [&[][..], &["write"], &["proved", "S", "1"], &["second-record", "S", "many"], &["second-record", "S"]]
    {
        refused(env!("CARGO_BIN_EXE_instructions"), words);
    }
}

#[test]
fn a_picture_of_nothing_is_an_error() {
    refused(env!("CARGO_BIN_EXE_picture"), &[]);
}

#[cfg(debug_assertions)]
#[test]
fn a_debug_build_measures_nothing() {
    for words in [&[][..], &["1"], &["process", "1"]] {
        let output = Command::new(env!("CARGO_BIN_EXE_bench")).args(words).output().expect("the program runs");
        assert_eq!(output.status.code(), Some(1), "{words:?}");
        assert!(output.stdout.is_empty() && output.stderr.starts_with(b"bench: this build"), "{words:?}");
    }
}

#[test]
fn a_book_is_listed() {
    let mut bench = Command::new(env!("CARGO_BIN_EXE_bench"));
    let mut process = bench.arg("listing").stdin(Stdio::piped()).stdout(Stdio::piped()).spawn().expect("it runs");
    let book = include_bytes!("../../books/sample.ntb");
    process.stdin.take().expect("a pipe").write_all(book).expect("it reads");
    let output = process.wait_with_output().expect("it ends");
    assert!(output.status.success());
    assert_eq!(output.stdout, include_bytes!("../../books/sample.listing"));
}
