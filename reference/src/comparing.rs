//! What the comparers share: a run over generated tables with progress, and a
//! failure that shows the table and both answers.

use std::path::Path;
use std::process::ExitCode;
use std::{fs, io};

use crate::arguments::Arguments;
use crate::generate::stream::{case, Case};
use crate::program::Program;
use crate::words::to_text;

/// Both answers to one table.
pub struct Difference {
    pub reference: String,
    pub tried: String,
}

/// A run: `count` tables of a seed, from number `first` on.
pub struct Run {
    pub seed: u64,
    pub first: u64,
    pub count: u64,
}

impl Run {
    pub fn of(arguments: &Arguments) -> Run {
        Run {
            seed: arguments.number("seed", 1),
            first: arguments.number("first", 0),
            count: arguments.number("count", 1_000),
        }
    }

    /// Compares every table; ends at the first difference.
    pub fn compare(&self, name: &str, test: &mut dyn FnMut(&Case) -> Result<(), Difference>) -> ExitCode {
        self.compare_cases(name, case, test)
    }

    /// As `compare`, with tables made by their seed and number in another way.
    pub fn compare_cases(
        &self,
        name: &str,
        case: fn(u64, u64) -> Case,
        test: &mut dyn FnMut(&Case) -> Result<(), Difference>,
    ) -> ExitCode {
        println!("{name}: seed {}, {} tables from number {}", self.seed, self.count, self.first);
        for done in 0..self.count {
            let number = self.first + done;
            let case = case(self.seed, number);
            if let Err(difference) = test(&case) {
                self.report(name, &case, &difference);
                return ExitCode::FAILURE;
            }
            if (done + 1) % self.count.div_ceil(10) == 0 {
                println!("{name}: {} of {} tables agree", done + 1, self.count);
            }
        }
        println!("{name}: all {} tables agree", self.count);
        ExitCode::SUCCESS
    }

    fn report(&self, name: &str, case: &Case, difference: &Difference) {
        let number = case.number;
        println!("{name}: FAILED at table {number} of seed {} ({})", self.seed, case.name);
        println!("again with: --seed {} --first {number} --count 1", self.seed);
        println!("table, {} bytes:\n{}", case.table.len(), to_text(&case.table));
        println!("reference:\n{}\ntried:\n{}", difference.reference, difference.tried);
    }
}

/// Reports a program that is not there: a failure only when it is required.
pub fn absent(program: &str, required: bool) -> Option<ExitCode> {
    if Path::new(program).is_file() {
        return None;
    }
    println!("not built yet: {program}");
    Some(if required { ExitCode::FAILURE } else { ExitCode::SUCCESS })
}

/// The program that the arguments name, started for a comparer, under another
/// command where one is given; or the exit code where it is not there.
pub fn started(name: &'static str, arguments: &Arguments) -> Result<Program, ExitCode> {
    let program = arguments.required("program");
    if let Some(code) = absent(program, arguments.has("require")) {
        return Err(code);
    }
    let mut words: Vec<&str> = arguments.text("under").unwrap_or("").split_whitespace().collect();
    words.push(program);
    let refused = |why| arguments.refuse(&format!("{program} does not start: {why}"));
    Ok(Program::start(name, &words).unwrap_or_else(refused))
}

/// Holds the stored case of a program, its `stdin` and `stdout`, to what is made
/// here, or writes it.
pub fn stored(name: &str, folder: &Path, write: bool, input: &[u8], lines: &str) -> io::Result<ExitCode> {
    let mut code = ExitCode::SUCCESS;
    for (file, contents) in [("stdin", input), ("stdout", lines.as_bytes())] {
        let file = folder.join(file);
        if write {
            fs::write(&file, contents)?;
        } else if fs::read(&file)? != contents {
            println!("{name}: {} is not what is made here", file.display());
            code = ExitCode::FAILURE;
        }
    }
    Ok(code)
}

/// The first line that differs, and a few lines of both texts from there.
pub fn text_difference(reference: &str, tried: &str) -> Result<(), Difference> {
    const SHOWN: usize = 12;
    if reference == tried {
        return Ok(());
    }
    let lines = |text: &str| text.split('\n').map(str::to_string).collect::<Vec<_>>();
    let (left, right) = (lines(reference), lines(tried));
    let first = left.iter().zip(&right).take_while(|(one, other)| one == other).count();
    let excerpt = |lines: &[String]| {
        let shown: Vec<&str> =
            lines[first.min(lines.len())..].iter().take(SHOWN).map(String::as_str).collect();
        format!("  {} lines, from line {}:\n{}", lines.len(), first + 1, shown.join("\n"))
    };
    Err(Difference { reference: excerpt(&left), tried: excerpt(&right) })
}

#[cfg(test)]
mod tests {
    use super::*;

    #[test]
    fn equal_texts_do_not_differ() {
        assert!(text_difference("a\nb\n", "a\nb\n").is_ok());
    }

    #[test]
    fn the_first_line_that_differs_is_shown() {
        let difference = text_difference("a\nb\nc\n", "a\nx\nc\n").expect_err("the texts differ");
        assert!(difference.reference.contains("from line 2:\nb"), "{}", difference.reference);
        assert!(difference.tried.contains("from line 2:\nx"), "{}", difference.tried);
    }

    #[test]
    fn a_missing_newline_is_a_difference() {
        assert!(text_difference("a\n", "a").is_err());
        assert!(text_difference("a\n", "a\n\n").is_err());
    }
}
