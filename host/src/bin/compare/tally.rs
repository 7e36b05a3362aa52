//! What was tested, of one batch or of all so far, and what is said of it.

use std::collections::BTreeMap;
use std::process::ExitCode;

use super::mixture::{Mixture, Numbers};
use super::Sample;
use nadhirukh_host::cases::Call;
use nadhirukh_host::outcome::PAST_NUMBERS;
use nadhirukh_host::positions::Positions;

/// How many differences are shown, and how much of each.
const SHOWN: usize = 20;
const SHOWN_LETTERS: usize = 2000;

pub struct Tally {
    mixture: &'static Mixture,
    /// By group.
    cases: Vec<u64>,
    differences: Vec<u64>,
    /// How often each number occurred, by call.
    numbers: Vec<[u64; PAST_NUMBERS]>,
    /// How often texts were refused in each way at each position.
    refusals: BTreeMap<String, u64>,
    /// What the first differences are.
    complaints: Vec<String>,
}

impl Tally {
    pub fn new(mixture: &'static Mixture) -> Tally {
        Tally {
            mixture,
            cases: vec![0; mixture.groups.len()],
            differences: vec![0; mixture.groups.len()],
            numbers: vec![[0; PAST_NUMBERS]; mixture.calls.len()],
            refusals: BTreeMap::new(),
            complaints: Vec::new(),
        }
    }

    /// Adds another one, and shows its complaints as long as few were shown.
    pub fn add(&mut self, other: Tally) {
        let sum = |to: &mut [u64], from: &[u64]| {
            to.iter_mut().zip(from).for_each(|(a, b)| *a += b);
        };
        sum(&mut self.cases, &other.cases);
        sum(&mut self.differences, &other.differences);
        for (to, from) in self.numbers.iter_mut().zip(&other.numbers) {
            sum(to, from);
        }
        for (refusal, count) in other.refusals {
            *self.refusals.entry(refusal).or_insert(0) += count;
        }
        for complaint in other.complaints {
            if self.complaints.len() < SHOWN {
                println!("{}", complaint);
                self.complaints.push(complaint);
            }
        }
    }

    pub fn count(&mut self, sample: &Sample, number: usize, refusal: Option<String>) {
        self.cases[sample.group] += 1;
        let call = self.place(sample.case.call);
        self.numbers[call][number] += 1;
        if let Some(refusal) = refusal {
            *self.refusals.entry(refusal).or_insert(0) += 1;
        }
    }

    /// The place of a call among those of the mixture.
    fn place(&self, call: Call) -> usize {
        let mut calls = self.mixture.calls.iter();
        calls
            .position(|one| *one == call)
            .expect("a call of the mixture")
    }

    pub fn differ(&mut self, sample: &Sample, what: &str) {
        self.differences[sample.group] += 1;
        if self.complaints.len() < SHOWN {
            let group = self.mixture.groups[sample.group];
            let complaint = format!("{} case {}: {}", group, sample.seed, what);
            let shown = complaint.chars().take(SHOWN_LETTERS);
            self.complaints.push(shown.collect());
        }
    }

    /// How many of the cases are not at an edge.
    pub fn random_cases(&self) -> u64 {
        self.cases[..self.mixture.calls.len()].iter().sum()
    }

    /// Prints the counts; the last line is `N passed, M failed` over the groups, the numbers and,
    /// where there are texts, the positions.
    pub fn report(&self, wanted: u64, positions: &Option<Positions>) -> ExitCode {
        let mut passed = Vec::new();
        for (group, name) in self.mixture.groups.iter().enumerate() {
            let (cases, differences) = (self.cases[group], self.differences[group]);
            println!("{}: {} cases, {} differ", name, cases, differences);
            passed.push(differences == 0 && cases > 0);
        }
        let all = (self.mixture.numbers)();
        let missing = all.iter().filter(|numbers| !self.occurred(numbers));
        passed.push(self.random_cases() == wanted && missing.count() == 0);
        if let Some(positions) = positions {
            passed.push(self.refused_everywhere(positions));
        }
        let failed = passed.iter().filter(|passed| !**passed).count();
        println!("{} passed, {} failed", passed.len() - failed, failed);
        ExitCode::from(u8::from(failed > 0))
    }

    /// Prints how often each of these numbers occurred; whether all of them did.
    fn occurred(&self, wanted: &Numbers) -> bool {
        let places = wanted.calls.iter().map(|call| self.place(*call));
        let places: Vec<usize> = places.collect();
        let count = |number: &u32| -> u64 {
            let counts = places.iter().map(|at| self.numbers[*at][*number as usize]);
            counts.sum()
        };
        let each = wanted.numbers.iter();
        let each: Vec<String> = each.map(|n| format!("{}: {}", n, count(n))).collect();
        println!(
            "how often each number of {} occurred: {}",
            wanted.whose,
            each.join(", ")
        );
        wanted.numbers.iter().all(|number| count(number) > 0)
    }

    /// Prints at how many positions of the grammar texts were refused, and where none was; whether
    /// some were everywhere.
    fn refused_everywhere(&self, positions: &Positions) -> bool {
        let all = positions.refusals();
        let missing = all.iter().filter(|way| !self.refusals.contains_key(*way));
        let missing: Vec<&str> = missing.map(String::as_str).collect();
        println!(
            "texts were refused in {} of {} ways, by position in the grammar and by what stood there",
            all.len() - missing.len(),
            all.len()
        );
        for way in &missing {
            println!("no text was refused: {}", way);
        }
        missing.is_empty()
    }
}
