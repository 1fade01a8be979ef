//! The names of the misreadings that a comparer has to notice, each in its line.

use reference::arguments::{Arguments, Usage};
use reference::rules::{Comparer, Misreading};

const USAGE: Usage = Usage { text: "misreadings --comparer NAME", values: &["comparer"], flags: &[] };

fn main() {
    let arguments = Arguments::of_process(&USAGE);
    let name = arguments.required("comparer");
    let named = Comparer::ALL.into_iter().find(|comparer| comparer.name() == name);
    let comparer = named.unwrap_or_else(|| arguments.refuse(&format!("--comparer: no comparer '{name}'")));
    let noticed = Misreading::ALL.iter().filter(|misreading| misreading.noticed_by().contains(&comparer));
    for misreading in noticed {
        println!("{misreading:?}");
    }
}
