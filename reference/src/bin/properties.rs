//! Tests all properties for the rules as written, with a seed and a number of
//! tables of one's own choice: the longer soak.

use std::process::ExitCode;
use std::time::Instant;

use reference::arguments::{Arguments, Usage};
use reference::properties::{Setting, ALL};
use reference::rules::Rules;

const USAGE: Usage =
    Usage { text: "properties [--seed N] [--tables N]", values: &["seed", "tables"], flags: &[] };

fn main() -> ExitCode {
    let arguments = Arguments::of_process(&USAGE);
    let setting = Setting {
        rules: Rules::AS_WRITTEN,
        seed: arguments.number("seed", 1),
        tables: arguments.number("tables", 3_000),
    };
    println!("properties: seed {}, {} tables for each property", setting.seed, setting.tables);
    for property in ALL {
        let start = Instant::now();
        if let Err(why) = (property.run)(&setting) {
            println!("FAILED {} with seed {}: {why}", property.name, setting.seed);
            return ExitCode::FAILURE;
        }
        println!("passed {} in {:.1} s", property.name, start.elapsed().as_secs_f64());
    }
    println!("properties: all {} passed", ALL.len());
    ExitCode::SUCCESS
}
