//! `swi FOLDER RUN..`: every example, and random tables of one-headed rules, on SWI-Prolog's CHR
//! library and on the proved program *run*, which the command RUN.. starts; programs for
//! SWI-Prolog are left in the folder.
//!
//! Prints a line for each sort of random tables, one for each example and, last,
//! `N passed, M failed`.

use std::env;
use std::error::Error;
use std::io::Write;
use std::path::Path;
use std::process::{Command, ExitCode, Stdio};

use nadhirukh_host::cases::Plan;
use nadhirukh_host::ending::Ending;
use nadhirukh_host::example::{goal_bytes, in_folder, Declared, Example, ANY_ORDER, BY_ORDER};
use nadhirukh_host::reference::state::Fact;
use nadhirukh_host::reference::{check, goal};
use nadhirukh_host::swi::tables::{Tables, DIVIDING, ONE_HEADED};
use nadhirukh_host::swi::{self, Arithmetic};
use nadhirukh_host::tools::{self, Trouble};

/// How many random goals each example is run on, beside the stored ones.
const RANDOM: u64 = 100;

type Tried<T> = Result<T, Box<dyn Error>>;

/// A goal, and how it ends here and there.
struct Compared {
    goal: Vec<Fact>,
    proved: Ending,
    swi: Ending,
}

fn main() -> ExitCode {
    tools::status("swi", compare_all())
}

fn compare_all() -> Result<ExitCode, Trouble> {
    let arguments: Vec<String> = env::args().skip(1).collect();
    let (folder, run) = match arguments.split_first() {
        Some((folder, run)) if !run.is_empty() => (Path::new(folder), run),
        _ => return Err(tools::usage("swi FOLDER RUN..")),
    };
    let mut verdicts = vec![
        try_random_tables(&ONE_HEADED, folder, run),
        try_random_tables(&DIVIDING, folder, run),
    ];
    for (examples, alike) in [(ANY_ORDER, true), (BY_ORDER, false)] {
        for (name, example) in in_folder(examples)? {
            let goals = example.all_goals(RANDOM);
            let compared = compare(&example, goals, &folder.join(&name), run);
            verdicts.push(report(&name, &example, alike, compared));
        }
    }
    let passed = verdicts.iter().filter(|good| **good).count();
    let failed = verdicts.len() - passed;
    println!("{} passed, {} failed", passed, failed);
    Ok(ExitCode::from(u8::from(failed > 0)))
}

/// Prints one line for random tables of a sort, or that of the first table which does not end alike.
fn try_random_tables(tables: &Tables, folder: &Path, run: &[String]) -> bool {
    let mut all = Vec::new();
    for (number, (plan, goals)) in tables.with_goals().enumerate() {
        let example = unnamed(&plan);
        let goals = goals.iter().map(|goal| read_goal(&example, goal)).collect();
        let name = format!("{}-{}", tables.file, number);
        match compare(&example, goals, &folder.join(&name), run) {
            Ok(compared) if compared.iter().all(|run| run.proved == run.swi) => {
                all.extend(compared)
            }
            compared => return report(&name, &example, true, compared),
        }
    }
    let name = format!("{} {}", tables.count, tables.what);
    report(&name, &Example::default(), true, Ok(all))
}

/// A table without names: its symbols are called s0, s1, ..
fn unnamed(plan: &Plan) -> Example {
    let declared = |(at, arity): (usize, &u8)| Declared {
        name: format!("s{}", at),
        arity: usize::from(*arity),
    };
    Example {
        symbols: plan.arities.iter().enumerate().map(declared).collect(),
        table: plan.bytes(),
        ..Example::default()
    }
}

fn read_goal(example: &Example, bytes: &[u8]) -> Vec<Fact> {
    let table = check::read(&example.table).expect("a random table is good");
    goal::read(bytes, &table).expect("a random goal is good")
}

/// Prints an example's line: whether the proved engine ends as stored, and SWI alike on every
/// goal, or unlike on every one. Goals that go against this are shown, and all that must differ.
fn report(name: &str, example: &Example, alike: bool, tried: Tried<Vec<Compared>>) -> bool {
    let compared = match tried {
        Ok(compared) => compared,
        Err(error) => {
            println!("{}: {}", name, error);
            return false;
        }
    };
    let as_expected = |run: &&Compared| (run.proved == run.swi) == alike;
    let right = compared.iter().filter(as_expected).count();
    let word = if alike { "alike" } else { "unlike" };
    let goals = compared.len();
    let numbers = numbers(&compared);
    println!("{}: {} of {} goals {}{}", name, right, goals, word, numbers);
    let shown = compared.iter().filter(|run| !alike || !as_expected(run));
    for run in shown.take(5) {
        println!("  goal   {}", example.tell_all(&run.goal));
        println!("  proved {}", tell(example, &run.proved));
        println!("  SWI    {}", tell(example, &run.swi));
    }
    let kept = ends_as_stored(example, &compared);
    if !kept {
        println!("  the proved engine does not end as the example says");
    }
    kept && right == goals && goals > 0
}

/// Whether the proved engine ends each stored goal as the example says.
fn ends_as_stored(example: &Example, compared: &[Compared]) -> bool {
    let mut stored = example.goals.iter().zip(compared);
    stored.all(|(stored, run)| stored.ending == run.proved)
}

/// How often runs of the proved engine ended with each number but 0.
fn numbers(compared: &[Compared]) -> String {
    let count = |number| {
        compared
            .iter()
            .filter(|run| run.proved.number == number)
            .count()
    };
    let ended = (1..8).filter(|number| count(*number) > 0);
    ended
        .map(|number| format!(", {} end with {}", count(number), number))
        .collect()
}

fn tell(example: &Example, ending: &Ending) -> String {
    match ending.number {
        0 => format!("leaves {}", example.tell_all(&ending.facts)),
        number => format!("ends {}", number),
    }
}

/// Runs goals of an example on both engines.
fn compare(
    example: &Example,
    goals: Vec<Vec<Fact>>,
    file: &Path,
    run: &[String],
) -> Tried<Vec<Compared>> {
    let file = &file.with_extension("pl");
    let table = check::read(&example.table).expect("an example's table is good");
    tools::write(file, swi::program(&table, &goals, Arithmetic::Exact))?;
    let theirs = swi_endings(file)?;
    if theirs.len() != goals.len() {
        return Err("SWI-Prolog did not run all goals".into());
    }
    let both = goals.into_iter().zip(theirs);
    both.map(|(goal, swi)| {
        let proved = proved_ending(example, &goal, run)?;
        Ok(Compared { goal, proved, swi })
    })
    .collect()
}

/// The endings that SWI-Prolog gives.
fn swi_endings(file: &Path) -> Tried<Vec<Ending>> {
    let output = Command::new("swipl")
        .args(["-q", "-g", "main", "-t", "halt"])
        .arg(file)
        .stdin(Stdio::null())
        .output()
        .map_err(|error| tools::named("swipl", error))?;
    let printed = String::from_utf8(output.stdout)?;
    let endings = swi::endings(&printed).filter(|_| output.status.success());
    // Warnings are of no interest: random tables have rules that never fire.
    let errors = String::from_utf8_lossy(&output.stderr);
    endings.ok_or_else(|| format!("SWI-Prolog did not run to its end\n{}", errors).into())
}

/// The ending that the program *run* gives.
fn proved_ending(example: &Example, goal: &[Fact], run: &[String]) -> Tried<Ending> {
    let mut child = Command::new(&run[0])
        .args(&run[1..])
        .stdin(Stdio::piped())
        .stdout(Stdio::piped())
        .spawn()
        .map_err(|error| tools::named(&run[0], error))?;
    let mut input = child.stdin.take().ok_or("run takes no input")?;
    input.write_all(&[example.table.clone(), goal_bytes(goal)].concat())?;
    drop(input);
    let printed = String::from_utf8(child.wait_with_output()?.stdout)?;
    run_ending(&printed).ok_or_else(|| format!("run printed {}", printed).into())
}

/// The ending in the lines of *run*: the words of the result, then identifier, symbol and arguments of
/// each fact.
fn run_ending(printed: &str) -> Option<Ending> {
    let mut lines = printed.lines();
    let number = lines.next()?.split(' ').next()?.parse().ok()?;
    let fact = |line: &str| swi::fact(line.split_once(' ')?.1);
    Some(Ending::new(number, lines.map(fact).collect::<Option<_>>()?))
}
