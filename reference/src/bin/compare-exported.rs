//! Compares exported check and exported path cost with the reference. The
//! functions are called by a program made of `exported/answers.c` and the library.

use std::io::{self, Read, Write};
use std::process::{Child, Command, ExitCode, Stdio};

use reference::arguments::{Arguments, Usage};
use reference::check::read;
use reference::comparing::{absent, Difference, Run};
use reference::path::{exported_check, exported_path_cost};
use reference::random::Random;
use reference::records::Plan;
use reference::rules::Rules;

const USAGE: Usage = Usage {
    text: "compare-exported --library FILE --program FILE [--seed N] [--first N] [--count N] [--check-only] [--require]",
    values: &["library", "program", "seed", "first", "count"],
    flags: &["check-only", "require"],
};

/// VID, from and to.
type Question = [u32; 3];

/// Questions to tables with more bridges are drawn, not all asked.
const QUESTIONS: usize = 40;

fn main() -> ExitCode {
    let arguments = Arguments::of_process(&USAGE);
    let program = arguments.required("program");
    if let Some(code) = absent(arguments.required("library"), arguments.has("require")) {
        return code;
    }
    let run = Run::of(&arguments);
    let mut answers = match Answers::start(program) {
        Ok(answers) => answers,
        Err(why) => arguments.refuse(&format!("{program} does not start: {why}")),
    };
    run.compare("compare-exported", &mut |case| {
        let mut questions = questions(&case.table, &mut Random::for_case(!run.seed, case.number));
        if arguments.has("check-only") {
            questions.clear();
        }
        let expected = expected(&case.table, &questions);
        let tried = answers.ask(&case.table, &questions);
        difference(&questions, &expected, tried)
    })
}

/// The two exported functions' numbers for one table.
#[derive(PartialEq)]
struct Numbers {
    check: u32,
    costs: Vec<u64>,
}

fn expected(table: &[u8], questions: &[Question]) -> Numbers {
    let rules = Rules::AS_WRITTEN;
    let cost = |&[vid, from, to]: &Question| exported_path_cost(rules, table, vid, from, to);
    Numbers { check: exported_check(rules, table), costs: questions.iter().map(cost).collect() }
}

/// Names that no table has, and pairs of the table's own: all where there are
/// few, else some drawn.
fn questions(table: &[u8], random: &mut Random) -> Vec<Question> {
    let plan = read(Rules::AS_WRITTEN, table).unwrap_or_default();
    let vid = plan.vids.first().map_or(1, |record| u32::from(record.vid));
    let size = plan.bridges.len() as u32;
    let mut questions = vec![[vid, 0, size], [vid, size, 0], [vid, u32::MAX, 0], [0, 0, 0], [4_095, 0, 0]];
    questions.extend([[vid + 65_536, 0, 0], [vid, 65_536, 0], [vid, 0, 65_536], [u32::MAX; 3]]);
    let own = own_questions(&plan);
    if own.len() <= 4 * QUESTIONS {
        questions.extend(own);
    } else {
        questions.extend((0..QUESTIONS).map(|_| *random.pick(&own)));
    }
    questions
}

fn own_questions(plan: &Plan) -> Vec<Question> {
    let size = plan.bridges.len() as u32;
    let pairs = move || (0..size).flat_map(move |from| (0..size).map(move |to| (from, to)));
    let of_vid = |vid: u32| pairs().map(move |(from, to)| [vid, from, to]);
    plan.vids.iter().flat_map(|record| of_vid(u32::from(record.vid))).collect()
}

/// The first number that differs.
fn difference(
    questions: &[Question],
    expected: &Numbers,
    tried: io::Result<Numbers>,
) -> Result<(), Difference> {
    let tried = match tried {
        Ok(tried) if tried == *expected => return Ok(()),
        Ok(tried) => tried,
        Err(why) => {
            let reference = format!("check {}", expected.check);
            return Err(Difference { reference, tried: format!("no answer: {why}") });
        }
    };
    if tried.check != expected.check {
        let text = |check: u32| format!("check {check}");
        return Err(Difference { reference: text(expected.check), tried: text(tried.check) });
    }
    let place = expected.costs.iter().zip(&tried.costs).take_while(|(one, other)| one == other).count();
    let [vid, from, to] = questions[place];
    let text = |costs: &[u64]| format!("path cost of VID {vid} from {from} to {to}: {}", costs[place]);
    Err(Difference { reference: text(&expected.costs), tried: text(&tried.costs) })
}

/// The program that calls the exported functions.
struct Answers {
    child: Child,
}

impl Answers {
    fn start(program: &str) -> io::Result<Answers> {
        let child = Command::new(program).stdin(Stdio::piped()).stdout(Stdio::piped()).spawn()?;
        Ok(Answers { child })
    }

    fn ask(&mut self, table: &[u8], questions: &[Question]) -> io::Result<Numbers> {
        let mut request = (table.len() as u32).to_be_bytes().to_vec();
        request.extend(table);
        request.extend((questions.len() as u32).to_be_bytes());
        request.extend(questions.iter().flatten().flat_map(|number| number.to_be_bytes()));
        let input = self.child.stdin.as_mut().expect("the input is piped");
        let sent = input.write_all(&request).and_then(|()| input.flush());
        sent.and_then(|()| self.answer(questions.len())).map_err(|why| self.ended(&why))
    }

    /// Says how the program ended, which it is not to do before its input ends.
    fn ended(&mut self, why: &io::Error) -> io::Error {
        drop(self.child.stdin.take());
        match self.child.wait() {
            Ok(status) => io::Error::other(format!("the program ended with {status} ({why})")),
            Err(other) => other,
        }
    }

    fn answer(&mut self, questions: usize) -> io::Result<Numbers> {
        let output = self.child.stdout.as_mut().expect("the output is piped");
        let mut check = [0; 4];
        output.read_exact(&mut check)?;
        let mut costs = Vec::new();
        for _ in 0..questions {
            let mut cost = [0; 8];
            output.read_exact(&mut cost)?;
            costs.push(u64::from_be_bytes(cost));
        }
        Ok(Numbers { check: u32::from_be_bytes(check), costs })
    }
}

impl Drop for Answers {
    /// Closes the input and waits, so that no program is left behind.
    fn drop(&mut self) {
        drop(self.child.stdin.take());
        if let Err(why) = self.child.wait() {
            eprintln!("compare-exported: {why}");
        }
    }
}
