//! Writes generated tables to files: the cases of a seed, with `--shape` one full
//! network of that shape and number of bridges, with `--traffic` the same with so many
//! traffic records, or with `--longest-list` the star whose middle bridge has the longest
//! entry list.

use std::fs;
use std::io;
use std::path::Path;

use reference::arguments::{Arguments, Usage};
use reference::comparing::Run;
use reference::generate::shapes::Shape;
use reference::generate::stream::case;
use reference::generate::traffic::traffic;
use reference::generate::valid::{fullest_of_shape, longest_star};
use reference::random::Random;
use reference::records::{Kind, Plan};

const USAGE: Usage = Usage {
    text: "table-generator --folder NAME [--seed N] [--first N] [--count N] [--shape NAME --bridges N [--traffic N] | --longest-list]",
    values: &["folder", "seed", "first", "count", "shape", "bridges", "traffic"],
    flags: &["longest-list"],
};

fn main() -> io::Result<()> {
    let arguments = Arguments::of_process(&USAGE);
    let folder = Path::new(arguments.required("folder"));
    fs::create_dir_all(folder)?;
    if arguments.has("longest-list") {
        return write_table(&folder.join("star-64.table"), &longest_star());
    }
    match arguments.text("shape") {
        Some(name) => write_shape(&arguments, folder, name),
        None => write_cases(&Run::of(&arguments), folder),
    }
}

fn write_shape(arguments: &Arguments, folder: &Path, name: &str) -> io::Result<()> {
    let unknown = || arguments.refuse(&format!("--shape: no measured shape '{name}'"));
    let shape = Shape::named(name).filter(|shape| Shape::MEASURED.contains(shape)).unwrap_or_else(unknown);
    let bridges = arguments.number("bridges", 64);
    if !(8..=64).contains(&bridges) {
        arguments.refuse("--bridges: 8 to 64");
    }
    let mut random = Random::new(arguments.number("seed", 1));
    let mut plan = fullest_of_shape(shape, bridges as usize, &mut random);
    let records = arguments.number("traffic", 0) as usize;
    if records == 0 {
        return write_table(&folder.join(format!("{name}-{bridges}.table")), &plan);
    }
    if records > Kind::Traffic.limit() {
        arguments.refuse("--traffic: 0 to 256");
    }
    plan.traffic = traffic(&plan, records, &mut random);
    write_table(&folder.join(format!("{name}-traffic-{bridges}.table")), &plan)
}

fn write_table(file: &Path, plan: &Plan) -> io::Result<()> {
    fs::write(file, plan.bytes())?;
    println!("{}", file.display());
    Ok(())
}

fn write_cases(run: &Run, folder: &Path) -> io::Result<()> {
    for number in run.first..run.first + run.count {
        let case = case(run.seed, number);
        let file = folder.join(format!("{}-{number:06}.table", run.seed));
        fs::write(&file, &case.table)?;
        let expected = case
            .expected
            .map_or_else(|refusal| format!("refused {}", refusal.number), |()| "accepted".into());
        println!("{} {expected} ({})", file.display(), case.name);
    }
    Ok(())
}
