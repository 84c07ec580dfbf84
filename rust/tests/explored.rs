//! All sessions of scripts: what is told of them is what `lwpexplore` tells.

use std::fs;
use std::path::{Path, PathBuf};

use loqzemar::{explore_ends, explore_line, explore_trace, Ending, Explored, Fault, Unexplored};

fn top() -> PathBuf {
    std::env::var_os("LOQZEMAR_TOP").map_or_else(|| Path::new(env!("CARGO_MANIFEST_DIR")).join(".."), PathBuf::from)
}

fn corpus(name: &str) -> PathBuf {
    top().join("crates/corpus/data").join(name)
}

fn script(name: &str) -> Vec<u8> {
    fs::read(corpus(name)).unwrap()
}

/// What is told, and its status.
fn asked(script: &[u8], words: &[&str]) -> (String, u32) {
    let cores = words.get(if words[0] == "ends" { 1 } else { 2 }).map_or(100_000, |cores| cores.parse().unwrap());
    let told = match words[0] {
        "ends" => explore_ends(script, cores),
        "trace" => explore_trace(script, words[1].parse().unwrap(), cores),
        _ => explore_line(script, words[1].as_bytes(), cores),
    };
    match told {
        Ok(Explored { text, ending: Ending::Well }) => (text, 0),
        Ok(Explored { text, ending: Ending::Told }) => (text, 109),
        Ok(Explored { text, ending: Ending::Cut }) => (text, 110),
        Ok(Explored { text, ending: Ending::Missing }) => (text, 111),
        Err(Unexplored::NoScript { why, .. }) => (why + "\n", 103),
        Err(fault) => panic!("{fault}"),
    }
}

#[test]
fn what_is_told_is_what_is_stored() {
    let mut count = 0;
    for row in fs::read_to_string(corpus("explore_rows")).unwrap().lines() {
        // A name, a script, what is told, a status, and the words.
        let parts: Vec<&str> = row.split_whitespace().collect();
        if parts[3] != "100" {
            let text = fs::read_to_string(corpus(parts[2])).unwrap();
            assert_eq!(asked(&script(parts[1]), &parts[4..]), (text, parts[3].parse().unwrap()), "{row}");
            count += 1;
        }
    }
    assert!(count > 80);
}

#[test]
fn lines_with_spaces_are_found() {
    for row in fs::read_to_string(top().join("c/tests/line_rows")).unwrap().lines() {
        let parts: Vec<&str> = row.splitn(4, ' ').collect();
        let (text, line) = parts[3].split_once(": ").unwrap();
        let told = asked(&script(parts[0]), &["line", line, parts[1]]);
        assert_eq!(told, (format!("{text}\n"), parts[2].parse().unwrap()), "{row}");
    }
}

#[test]
fn a_long_trace_is_asked_for_again() {
    let said = format!("say {}\n", "x".repeat(200));
    let told = explore_trace(format!("lwp 1\npod 1\nproc main\n{}", said.repeat(1000)).as_bytes(), 1, 100_000).unwrap();
    assert_eq!(told.text.matches(said.as_str()).count(), 1000);
}

#[test]
fn numbers_out_of_range_are_refused() {
    let script = script("first_run.script");
    let refused = Err(Unexplored::Fault(Fault::BadNumber));
    for cores in [0, 1_000_001, u64::MAX] {
        assert_eq!(explore_ends(&script, cores), refused);
        assert_eq!(explore_trace(&script, 1, cores), refused);
        assert_eq!(explore_line(&script, b"", cores), refused);
    }
    for kind in [0, 1 << 32, u64::MAX] {
        assert_eq!(explore_trace(&script, kind, 1), refused);
    }
}
