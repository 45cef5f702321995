//! Cases run one after the other: every word returned or written is held against the expected one.

use crate::case::{Case, Row, Words};
use crate::rows::Rows;
use std::fmt;

/// A fault planted in our side: changes the word that a call returned, or a word of the rows that it was lent.
pub type Plant = fn(&Case, &mut u64, &mut Rows);

/// The rows twice: ours, which are lent to the calls, and the expected ones.
pub struct Run {
    ours: Rows,
    expected: Rows,
    plant: Option<Plant>,
}

/// What a call did otherwise than expected.
pub struct Difference {
    case: Case,
    answer: u64,
    /// The row, the place, the expected word and ours.
    word: Option<(Row, usize, u64, u64)>,
}

impl Run {
    pub fn new(plant: Option<Plant>) -> Run {
        Run {
            ours: Rows::zeros(),
            expected: Rows::zeros(),
            plant,
        }
    }

    /// Runs a case and compares its answer and every row that the call may write, each to its end.
    pub fn case(&mut self, case: &Case) -> Result<(), Box<Difference>> {
        for words in &case.before {
            self.ours.write(words);
            self.expected.write(words);
        }
        for words in &case.after {
            self.expected.write(words);
        }
        let mut answer = self.ours.call(case);
        if let Some(plant) = self.plant {
            plant(case, &mut answer, &mut self.ours);
        }
        let word = self.first_unequal(case);
        if answer == case.answer && word.is_none() {
            return Ok(());
        }
        Err(Box::new(Difference {
            case: case.clone(),
            answer,
            word,
        }))
    }

    fn first_unequal(&self, case: &Case) -> Option<(Row, usize, u64, u64)> {
        for &row in case.call.writes() {
            let (expected, ours) = (self.expected.row(row), self.ours.row(row));
            if expected != ours {
                let place = (0..ours.len()).find(|&place| expected[place] != ours[place])?;
                return Some((row, place, expected[place], ours[place]));
            }
        }
        None
    }
}

impl fmt::Display for Difference {
    fn fmt(&self, f: &mut fmt::Formatter<'_>) -> fmt::Result {
        let Difference { case, answer, word } = self;
        write!(f, "{}", case.call.name())?;
        for (name, number) in case.call.numbers().iter().zip(&case.numbers) {
            write!(f, " {name}={number}")?;
        }
        writeln!(f)?;
        for words in &case.before {
            writeln!(f, "  put before: {}", shown(words))?;
        }
        writeln!(f, "expected answer {}, ours {answer}", case.answer)?;
        if let Some((row, place, expected, ours)) = word {
            writeln!(
                f,
                "first word that differs: {row:?} {place}: expected {expected}, ours {ours}"
            )?;
        }
        Ok(())
    }
}

/// Words with their row and place; runs of equal words are told by their number.
fn shown(words: &Words) -> String {
    let mut told = format!("{:?} from {}:", words.row, words.at);
    for run in words.words.chunk_by(|a, b| a == b) {
        match run {
            [word] => told += &format!(" {word}"),
            [word, ..] => told += &format!(" {word}*{}", run.len()),
            [] => {}
        }
    }
    told
}
