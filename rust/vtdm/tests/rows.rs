//! The worked rows and the example scripts of the repository, answered through this crate: each byte is to be the one that is stored.
//! Of a run with a bad line the lines before it are answered, as the program does: the line itself is none of a call.

#[path = "rows/row.rs"]
mod row;
#[path = "rows/script.rs"]
mod script;

use row::Run;
use std::fs;
use std::path::{Path, PathBuf};
use vtdm::{Manager, Refused};

/// Table frames, where no option says how many.
const TABLE_FRAMES: u64 = 64;
/// What a call is answered for which a history has no room, and there is no history here.
const FULL: &str = "refused 15";
/// As many runs at least can be driven here.
const LEAST_RUNS: usize = 200;

fn examples() -> PathBuf {
    Path::new(env!("CARGO_MANIFEST_DIR")).join("../../examples")
}

/// The files of a folder with this ending, by their names.
fn files_of(folder: &Path, ending: &str) -> Vec<PathBuf> {
    let all = fs::read_dir(folder).unwrap().map(|it| it.unwrap().path());
    let mut files: Vec<_> =
        all.filter(|it| it.extension().is_some_and(|it| it == ending)).collect();
    files.sort();
    files
}

/// The manager that a command line asks for.
fn manager_of(words: &[String]) -> Result<Manager, Refused> {
    let place = words.iter().position(|it| it == "--frames");
    let frames = place.map_or(TABLE_FRAMES, |it| words[it + 1].parse().unwrap());
    if words.iter().any(|it| it == "--caching-mode") {
        Manager::with_caching_mode(frames)
    } else {
        Manager::new(frames)
    }
}

/// What `vtdm` with these words writes for good lines.
fn written(words: &[String], lines: &[&str]) -> String {
    let mut manager = manager_of(words).unwrap();
    let answers = lines.iter().map(|line| script::answer(&mut manager, line) + "\n");
    let answers: Vec<_> = answers.collect();
    match words[0].as_str() {
        "run" => answers.concat(),
        "report" => script::report(&manager, answers.len()).unwrap(),
        other => panic!("no such command: {other}"),
    }
}

/// Whether a run is left out: it judges a trace, or asks the program for more than a manager.
fn is_left_out(run: &Run) -> bool {
    let others = ["check", "--calls", "--forever", "--iova"];
    run.words.iter().any(|it| others.contains(&it.as_str()))
}

#[test]
fn rows_are_answered_as_stored() {
    let mut driven = 0;
    let mut faults = Vec::new();
    for path in files_of(&examples().join("rows"), "row") {
        let runs = row::runs_of(&fs::read_to_string(&path).unwrap());
        assert!(!runs.is_empty(), "{} has no run", path.display());
        // A file about full histories is left out whole: its other runs are those of one too.
        if runs.iter().any(|it| it.output.iter().any(|line| line == FULL)) {
            continue;
        }
        for (number, run) in (1..).zip(&runs).filter(|(_, run)| !is_left_out(run)) {
            let said = written(&run.words, &run.good_lines());
            driven += 1;
            if !row::fits(&run.output, &said) {
                faults.push(format!("{}, run {number}: {said}", path.display()));
            }
        }
    }
    assert!(faults.is_empty(), "{}", faults.join("\n"));
    assert!(driven >= LEAST_RUNS, "{driven} runs alone");
}

#[test]
fn example_scripts_are_answered_as_stored() {
    let scripts = files_of(&examples(), "script");
    assert!(!scripts.is_empty());
    for path in scripts {
        let script = fs::read_to_string(&path).unwrap();
        let lines: Vec<_> = script.lines().collect();
        for (command, ending) in [("run", "output"), ("report", "report")] {
            let stored = path.with_extension(ending);
            if ending == "output" || stored.is_file() {
                let wanted = fs::read_to_string(&stored).unwrap();
                assert_eq!(written(&[command.to_owned()], &lines), wanted, "{}", stored.display());
            }
        }
    }
}
