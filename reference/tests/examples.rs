//! The stored listings of `examples/`, which the gate holds the listing program to, are
//! the reference's.

use std::fs;
use std::path::{Path, PathBuf};

use reference::listing::listing;
use reference::rules::{Misreading, Rules};
use reference::words::from_text;

fn plans() -> Vec<PathBuf> {
    let folder = Path::new(env!("CARGO_MANIFEST_DIR")).join("../examples");
    let files = fs::read_dir(folder).expect("the folder is readable");
    let paths = files.map(|file| file.expect("the folder is readable").path());
    let plans: Vec<PathBuf> = paths.filter(|path| path.extension().is_some_and(|end| end == "hex")).collect();
    assert!(!plans.is_empty(), "there is no plan");
    plans
}

fn table(plan: &Path) -> Vec<u8> {
    let text = fs::read_to_string(plan).expect("the plan is readable");
    from_text(&text).expect("hexadecimal text")
}

#[test]
fn every_example_lists_as_stored() {
    for plan in plans() {
        let stored = fs::read_to_string(plan.with_extension("txt")).expect("the listing is readable");
        assert_eq!(listing(Rules::AS_WRITTEN, &table(&plan)), stored, "{}", plan.display());
    }
}

/// The example of request A6 lists otherwise where extension bits count, and no other
/// example does.
#[test]
fn extension_bits_count_in_one_example_alone() {
    let before = Rules::with(Misreading::ExtensionCounts);
    for plan in plans() {
        let [now, then] = [Rules::AS_WRITTEN, before].map(|rules| listing(rules, &table(&plan)));
        let is_of_request = plan.file_stem().is_some_and(|name| name == "extension-bits");
        assert_eq!(now != then, is_of_request, "{}", plan.display());
    }
}
