//! The programs `call_cases` and `show`.

use std::fs;
use std::path::{Path, PathBuf};
use std::process::Command;

use nadhirukh_host::build::{goal, table_a};
use nadhirukh_host::outcome::{text_printings, text_readings};
use nadhirukh_host::outcome::{ENDINGS, GOAL_REFUSALS, TABLE_REFUSALS, WEIGHT_REFUSALS};

/// A folder of this test's own.
fn folder(name: &str) -> PathBuf {
    let folder = Path::new(env!("CARGO_TARGET_TMPDIR")).join(name);
    fs::create_dir_all(&folder).expect("the folder can be made");
    folder
}

/// Runs `call_cases` for some groups: the cases and the lines.
fn call_cases(name: &str, groups: &[&str]) -> (Vec<u8>, String) {
    let folder = folder(name);
    let status = Command::new(env!("CARGO_BIN_EXE_call_cases"))
        .arg(&folder)
        .args(groups)
        .status();
    assert!(status.expect("call_cases starts").success());
    let cases = fs::read(folder.join("stdin")).expect("the cases");
    let lines = fs::read_to_string(folder.join("stdout")).expect("the lines");
    (cases, lines)
}

/// How many lines begin with these words.
fn count(lines: &str, begin: &str) -> usize {
    let begin = format!("{} ", begin);
    lines
        .lines()
        .filter(|line| line.starts_with(&begin))
        .count()
}

/// How many cases the bytes hold, walked through by their lengths.
fn cases_in(bytes: &[u8]) -> usize {
    let word = |at: usize| {
        let bytes = [bytes[at], bytes[at + 1], bytes[at + 2], bytes[at + 3]];
        u32::from_le_bytes(bytes) as usize
    };
    let (mut at, mut cases) = (0, 0);
    while bytes[at] != b'.' {
        at += 21 + word(at + 1) + word(at + 5) + word(at + 9);
        cases += 1;
    }
    assert_eq!(at + 1, bytes.len());
    cases
}

#[test]
fn call_cases_hold_every_number_often_and_stay_short() {
    let (cases, lines) = call_cases("all", &[]);
    assert!(cases.len() < 2_000_000, "{} bytes", cases.len());
    assert_eq!(cases_in(&cases), lines.lines().count());
    assert!(count(&lines, "C") >= 450);
    for number in TABLE_REFUSALS {
        assert!(count(&lines, &format!("C {}", number)) >= 40);
    }
    for number in ENDINGS {
        assert!(count(&lines, &format!("R {}", number)) >= 25);
    }
    for number in GOAL_REFUSALS {
        assert!(count(&lines, &format!("R {}", number)) >= 30);
    }
    assert!(count(&lines, "W") >= 400);
    // Weighing takes a goal, and neither limit nor answer buffer.
    let weighings = [&[0][..], &GOAL_REFUSALS[..3], &WEIGHT_REFUSALS].concat();
    for number in weighings {
        assert!(count(&lines, &format!("W {}", number)) >= 25);
    }
    for number in text_readings().into_iter().filter(|number| *number != 48) {
        assert!(count(&lines, &format!("T {}", number)) >= 50);
    }
    for number in text_printings() {
        assert!(count(&lines, &format!("P {}", number)) >= 5);
    }
    let steps = |line: &str| line.split(' ').nth(3).map(|word| word.parse());
    let short = |line| matches!(steps(line), Some(Ok(0..=199_999_u32)));
    assert!(lines.lines().all(short));
}

#[test]
fn call_cases_write_the_groups_asked_for_and_the_same_each_time() {
    let (cases, lines) = call_cases("goals", &["goal"]);
    assert_eq!(count(&lines, "R"), lines.lines().count());
    assert!(lines.lines().all(|line| line.ends_with(" keeps")));
    assert_eq!(call_cases("goals", &["goal"]), (cases, lines));
}

#[test]
fn show_prints_the_steps_and_what_is_left() {
    let readings = goal(&[(0, &[7, 310]), (0, &[7, 280]), (0, &[7, 295])]);
    let file = folder("show").join("readings");
    fs::write(&file, [table_a(), readings].concat()).expect("the file can be written");
    let output = Command::new(env!("CARGO_BIN_EXE_show")).arg(&file).output();
    let text = String::from_utf8(output.expect("show starts").stdout).expect("text");
    assert!(text.contains("Activate s0(7,310) as 1"));
    assert!(text.contains("Propagate rule 0: [2] \\ [1] -> []"));
    assert!(text.ends_with("\n0 0 11 2 3 1\n2 s0(7,280)\n"));
}
