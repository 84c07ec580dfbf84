//! Scripts of the corpus with bodies of this package as threads: their traces are the stored ones, byte for byte.

mod scripts;

use std::fs;
use std::path::{Path, PathBuf};

use loqzemar::{End, Fault, Unfollowed};
use scripts::Script;

/// The stored traces of scripts that aren't refused, whose threads all run statements.
fn chosen() -> Vec<PathBuf> {
    let folder = Path::new(env!("CARGO_MANIFEST_DIR")).join("../crates/corpus/data");
    let folder = std::env::var_os("LOQZEMAR_TOP").map_or(folder, |top| Path::new(&top).join("crates/corpus/data"));
    let mut traces: Vec<PathBuf> = fs::read_dir(folder).unwrap().map(|entry| entry.unwrap().path()).collect();
    traces.retain(|trace| trace.extension().map_or(false, |it| it == "trace"));
    traces.retain(|trace| {
        fs::read_to_string(trace.with_extension("script")).map_or(false, |it| it.ends_with('\n') && !it.contains("\nnative "))
    });
    traces.sort();
    traces
}

#[test]
fn traces_are_those_of_the_corpus() -> Result<(), Fault> {
    let mut count = 0;
    for path in chosen() {
        let stored = fs::read_to_string(&path).unwrap();
        let script = Script::new(&fs::read_to_string(path.with_extension("script")).unwrap());
        let spent = stored.lines().find_map(|line| line.strip_prefix("spent ")?.parse().ok());
        let mut pod = script.pod()?;
        let end = pod.run_for(spent.unwrap_or(100_000))?;
        assert_eq!(pod.trace(), stored, "{}", path.display());
        assert_eq!(end == End::Spent, spent.is_some());
        count += 1;
    }
    assert!(count >= 60, "there are {count}");
    Ok(())
}

#[test]
fn states_are_those_of_the_corpus() -> Result<(), Fault> {
    let rows = chosen().pop().unwrap().with_file_name("state_rows");
    let mut count = 0;
    for row in fs::read_to_string(&rows).unwrap().lines() {
        let words: Vec<&str> = row.split_whitespace().collect();
        if words.get(4) != Some(&"plan") || !words[2].ends_with(".state") {
            continue;
        }
        let script = Script::new(&fs::read_to_string(rows.with_file_name(words[1])).unwrap());
        let mut pod = script.pod()?;
        pod.run_for(words.get(5).map_or(100_000, |calls| calls.parse().unwrap()))?;
        let stored = fs::read_to_string(rows.with_file_name(words[2])).unwrap();
        let wanted: String = stored.split_inclusive('\n').filter(|line| !line.starts_with("client ")).collect();
        assert_eq!(pod.state()?, wanted, "{row}");
        count += 1;
    }
    assert!(count >= 30, "there are {count}");
    Ok(())
}

#[test]
fn traces_of_the_corpus_are_followed() -> Result<(), Unfollowed> {
    for path in chosen() {
        let stored = fs::read_to_string(&path).unwrap();
        let mut script = Script::new(&fs::read_to_string(path.with_extension("script")).unwrap());
        script.forget_posts();
        let mut pod = script.pod()?;
        pod.follow(&stored)?;
        let left: String = stored.split_inclusive('\n').filter(|line| line.starts_with("left client ")).collect();
        let told = if stored.contains("\nspent ") { stored.rfind("spent ").unwrap() } else { stored.len() - left.len() };
        assert_eq!(&pod.trace()[..told], &stored[..told], "{}", path.display());
    }
    Ok(())
}

#[test]
fn a_record_that_differs_is_found() {
    let folder = chosen().pop().unwrap();
    let path = folder.with_file_name("sleep.trace");
    let stored = fs::read_to_string(&path).unwrap();
    let mut script = Script::new(&fs::read_to_string(path.with_extension("script")).unwrap());
    script.forget_posts();
    let lines: Vec<&str> = stored.split_inclusive('\n').collect();
    for at in 0..lines.len() {
        let mut changed = lines.clone();
        changed[at] = "t0: self\n";
        let wanted = lines[at].trim_end();
        match script.pod().unwrap().follow(&changed.concat()).unwrap_err() {
            Unfollowed::Differs { line, got, .. } => assert_eq!((line, got.as_deref()), (at + 1, Some("t0: self")), "{wanted}"),
            other => panic!("{other}"),
        }
        // A line from outside that nobody could have posted differs too.
        for bad in [
            "event 999 client 0 seq 0 x\n",
            "tick 1 client 300 seq 0\n",
            "tick 1 client 0 seq 4294967296\n",
            "tick 1 client 0 seq 0 \u{e9}\n",
        ] {
            changed[at] = bad;
            assert!(matches!(script.pod().unwrap().follow(&changed.concat()), Err(Unfollowed::Differs { line, .. }) if line == at + 1));
        }
        // A record that was cut is followed to its end.
        let cut = &stored[..lines[..at].concat().len() + 1];
        assert!(script.pod().unwrap().follow(cut).is_ok());
    }
}
