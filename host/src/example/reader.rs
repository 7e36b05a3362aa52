//! Declarations, rules, goals and random goals from an example's words. Each ends with a dot:
//!
//! ```text
//! mu/2.                                                   a symbol and its arity
//! lower @ mu(S, A) \ mu(S, B) <=> A =< B | true.          a rule
//! goal mu(7, 310), mu(7, 280) leaves mu(7, 280).          a goal, and the facts that remain
//! goal mu(0, 0) ends 3.                                   a goal, and the number it ends with
//! random 0..20 mu(1..4, 100..900), 1 mu(5, 0).            what random goals are made of
//! ```

use super::cursor::Cursor;
use super::draw::{Draw, Range};
use super::token::tokens;
use super::{goal_bytes, rule, Declared, Error, Example, Place, Stored};
use crate::build::{table, Rule};
use crate::ending::Ending;
use crate::format::PLACES;
use crate::reference::state::Fact;
use crate::reference::table::Table;
use crate::reference::{check, goal};
use crate::words;

/// Names that no symbol can have.
const TAKEN: [&str; 6] = ["goal", "leaves", "ends", "random", "true", "fail"];

/// Reads a text.
pub fn read(text: &str) -> Result<Example, Error> {
    let mut reader = Reader {
        cursor: Cursor::new(tokens(text)?),
        rules: Vec::new(),
        example: Example::default(),
    };
    while reader.cursor.peek().is_some() {
        let place = reader.cursor.place();
        reader.statement()?;
        reader.checked(place)?;
        reader.cursor.end_of_statement()?;
    }
    reader.example.table = reader.table();
    Ok(reader.example)
}

/// What is read so far.
struct Reader {
    cursor: Cursor,
    rules: Vec<Rule>,
    example: Example,
}

impl Reader {
    fn statement(&mut self) -> Result<(), Error> {
        if self.cursor.second_is("/") {
            self.declaration()
        } else if self.cursor.take_name("goal") {
            self.goal()
        } else if self.cursor.take_name("random") {
            self.random()
        } else {
            self.rule()
        }
    }

    /// `name/arity`.
    fn declaration(&mut self) -> Result<(), Error> {
        let place = self.cursor.place();
        let wrong = |message| Err(Error { place, message });
        let name = self.cursor.name()?;
        let symbols = &mut self.example.symbols;
        if TAKEN.contains(&name.as_str()) {
            return wrong(format!("{} has a meaning of its own", name));
        }
        if symbols.iter().any(|symbol| symbol.name == name) {
            return wrong(format!("{} is declared already", name));
        }
        self.cursor.expect("/")?;
        let arity = self.cursor.constant()?;
        match usize::try_from(arity) {
            Ok(arity @ 0..=PLACES) => symbols.push(Declared { name, arity }),
            _ => {
                return wrong(format!(
                    "a symbol has 0 to {} places, not {}",
                    PLACES, arity
                ))
            }
        }
        Ok(())
    }

    fn rule(&mut self) -> Result<(), Error> {
        let rule = rule::rule(&mut self.cursor, &self.example.symbols)?;
        self.rules.push(rule);
        Ok(())
    }

    /// The table of what is read so far.
    fn table(&self) -> Vec<u8> {
        let symbols = self.example.symbols.iter();
        let arities: Vec<u8> = symbols.map(|symbol| symbol.arity as u8).collect();
        table(&arities, &self.rules)
    }

    /// The same, if the engines take it; else the statement at this place is at fault.
    fn checked(&self, place: Place) -> Result<Table, Error> {
        let table = self.table();
        check::read(&table).map_err(|refusal| Error {
            place,
            message: words::refused(&table, refusal),
        })
    }

    /// `goal facts leaves facts`, or `goal facts ends number`.
    fn goal(&mut self) -> Result<(), Error> {
        let place = self.cursor.place();
        let goal = self.facts()?;
        self.test_goal(place, &goal)?;
        let ending = if self.cursor.take_name("leaves") {
            Ending::new(0, self.facts()?)
        } else if self.cursor.take_name("ends") {
            self.ends()?
        } else {
            return Err(self.cursor.expected("'leaves' or 'ends'"));
        };
        self.example.goals.push(Stored { goal, ending });
        Ok(())
    }

    /// Whether the engines take a goal.
    fn test_goal(&self, place: Place, facts: &[Fact]) -> Result<(), Error> {
        let table = self.checked(place)?;
        let read = goal::read(&goal_bytes(facts), &table);
        read.map(|_| ()).map_err(|refusal| Error {
            place,
            message: words::refused(&self.table(), refusal),
        })
    }

    /// The number of a run that is not done.
    fn ends(&mut self) -> Result<Ending, Error> {
        let place = self.cursor.place();
        match self.cursor.constant()? {
            number @ 1..=7 => Ok(Ending::new(number as u32, Vec::new())),
            number => Err(Error {
                place,
                message: format!("behind 'ends' stands 1 to 7, not {}", number),
            }),
        }
    }

    /// Ground facts; `true` for none.
    fn facts(&mut self) -> Result<Vec<Fact>, Error> {
        if self.cursor.take_name("true") {
            return Ok(Vec::new());
        }
        let symbols = &self.example.symbols;
        let facts = self
            .cursor
            .list(|cursor| cursor.fact(symbols, Cursor::ground))?;
        let fact = |(symbol, used): (_, Vec<i32>)| {
            let mut arguments = [0; PLACES];
            arguments[..used.len()].copy_from_slice(&used);
            Fact { symbol, arguments }
        };
        Ok(facts.into_iter().map(fact).collect())
    }

    /// `random count fact, ..`, with a range where a number may stand.
    fn random(&mut self) -> Result<(), Error> {
        let symbols = &self.example.symbols;
        let draws = self.cursor.list(|cursor| {
            let count = range(cursor)?;
            let (symbol, places) = cursor.fact(symbols, range)?;
            Ok(Draw {
                count,
                symbol,
                places,
            })
        })?;
        self.example.draws.extend(draws);
        Ok(())
    }
}

/// A number, or `first..last`.
fn range(cursor: &mut Cursor) -> Result<Range, Error> {
    let place = cursor.place();
    let first = cursor.constant()?;
    let last = if cursor.take("..") {
        cursor.constant()?
    } else {
        first
    };
    if first <= last {
        Ok(Range { first, last })
    } else {
        let message = format!("{}..{} is empty", first, last);
        Err(Error { place, message })
    }
}
