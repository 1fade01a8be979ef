//! Damaged tables, each with the refusal that follows from the way it was made:
//! the number, the kind of the record and the number of its first word.

use std::collections::BTreeSet;

use super::edits::{edits, places, Edit, Place};
use super::shapes::Shape;
use super::traffic::traffic;
use super::valid::{full_network, fullest, plan, Size};
use crate::check::LONGEST_TABLE;
use crate::random::Random;
use crate::records::{HalfLink, Kind, Member, Plan, Vid, MARK_BIT};
use crate::refusal::Refusal;
use crate::words::bytes_of;

pub struct Damaged {
    pub name: String,
    pub table: Vec<u8>,
    pub refusal: Refusal,
}

impl Damaged {
    fn of_words(name: &str, words: &[u32], refusal: Refusal) -> Damaged {
        Damaged { name: name.to_string(), table: bytes_of(words), refusal }
    }
}

/// A damaged table of any family.
pub fn damaged(random: &mut Random) -> Damaged {
    let plan = plan(Size::up_to(10, random), random);
    let mut family = match random.between(0, 7) {
        0 => truncations(&plan),
        1 => vec![words_after_end(&plan, random)],
        2 => vec![edited_and_cut(&plan, random)],
        3 => over_limit(random),
        4 => vec![edited_traffic(random)],
        _ => vec![edited_twice(&plan, random)],
    };
    family.swap_remove(random.below(family.len()))
}

/// Refusal 1 in every way: empty, too long, no multiple of 4.
pub fn wrong_lengths(random: &mut Random) -> Vec<Damaged> {
    let fullest = fullest(random).bytes();
    assert_eq!(fullest.len(), LONGEST_TABLE, "the fullest table has the greatest length");
    let mut lengths: Vec<usize> = (0..=9).filter(|length| length % 4 != 0).collect();
    lengths.extend([0, LONGEST_TABLE - 3, LONGEST_TABLE - 1]);
    lengths.extend([1, 2, 3, 4, 8, 400, 100_000].map(|over| LONGEST_TABLE + over));
    let with_length = |length: usize| {
        let mut table = fullest.clone();
        table.resize(length, 0);
        Damaged { name: format!("length {length}"), table, refusal: Refusal::LENGTH }
    };
    lengths.into_iter().map(with_length).collect()
}

/// The longest table and one word more: it is not read.
pub fn one_word_too_long(random: &mut Random) -> Damaged {
    let mut table = fullest(random).bytes();
    table.extend(random_word(random).to_be_bytes());
    Damaged { name: format!("length {}", table.len()), table, refusal: Refusal::LENGTH }
}

/// Every shorter length of a table.
pub fn truncations(plan: &Plan) -> Vec<Damaged> {
    let whole = plan.bytes();
    let places = places(plan);
    let cut = |length: usize| Damaged {
        name: format!("cut to {length} bytes"),
        table: whole[..length].to_vec(),
        refusal: refusal_of_cut(&places, length),
    };
    (0..whole.len()).map(cut).collect()
}

fn refusal_of_cut(places: &[Place], length: usize) -> Refusal {
    let words = length / 4;
    if length == 0 || !length.is_multiple_of(4) {
        return Refusal::LENGTH;
    }
    match places.iter().find(|place| place.first < words && words < place.first + place.kind.words()) {
        Some(place) => Refusal::of_record(3, place.kind, place.first),
        None => Refusal { number: 3, kind: None, word: words },
    }
}

/// Refusal 10; the words after the end are not read as records.
pub fn words_after_end(plan: &Plan, random: &mut Random) -> Damaged {
    let mut words = plan.words();
    let end = words.len() - 1;
    for _ in 0..random.between(1, 5) {
        let candidates = [words[random.below(words.len())], 0, 0xF000_0000, random_word(random)];
        words.push(*random.pick(&candidates));
    }
    if random.one_in(3) {
        words[end] += 1;
        return Damaged::of_words(
            "wrong count and words after the end",
            &words,
            Refusal::of_record(6, Kind::End, end),
        );
    }
    Damaged::of_words("words after the end", &words, Refusal::of_record(10, Kind::End, end))
}

fn random_word(random: &mut Random) -> u32 {
    random.between(0, u64::from(u32::MAX)) as u32
}

/// Every single edit that leaves one faulty record.
pub fn edited_once(plan: &Plan) -> Vec<Damaged> {
    let words = plan.words();
    let damaged = |edit: &Edit| Damaged::of_words(edit.name, &edit.applied(&words), edit.refusal);
    edits(plan).iter().map(damaged).collect()
}

/// An edit of a traffic record. Such records come last, and of two faulty records the
/// first counts.
pub fn edited_traffic(random: &mut Random) -> Damaged {
    let size = Size { bridges: 2 + random.below(9), vids: 1 + random.below(3), members: random.below(5) };
    let mut plan = plan(size, random);
    plan.traffic = traffic(&plan, 2 + random.below(7), random);
    let mut edits = edits(&plan);
    edits.retain(|edit| edit.kind == Kind::Traffic);
    let edit = pick_edit(&edits, random);
    Damaged::of_words(edit.name, &edit.applied(&plan.words()), edit.refusal)
}

/// An edit of a refusal number and a kind that are drawn first, so that rare ones come
/// too.
fn pick_edit<'a>(edits: &'a [Edit], random: &mut Random) -> &'a Edit {
    let numbers: BTreeSet<u32> = edits.iter().map(|edit| edit.refusal.number).collect();
    let number = *random.pick(&Vec::from_iter(numbers));
    let of_number: Vec<&Edit> = edits.iter().filter(|edit| edit.refusal.number == number).collect();
    let kinds: BTreeSet<Kind> = of_number.iter().map(|edit| edit.kind).collect();
    let kind = *random.pick(&Vec::from_iter(kinds));
    let of_kind: Vec<&Edit> = of_number.into_iter().filter(|edit| edit.kind == kind).collect();
    of_kind[random.below(of_kind.len())]
}

/// One or two edits. Of two faulty records the first counts; of one record's
/// faults the lowest. Two edits of one record for one number may undo each other:
/// another link number and another far bridge can make a mirror.
pub fn edited_twice(plan: &Plan, random: &mut Random) -> Damaged {
    let edits = edits(plan);
    let (one, other) = (pick_edit(&edits, random), pick_edit(&edits, random));
    let once = one.applied(&plan.words());
    let undo = (one.first, one.refusal.number) == (other.first, other.refusal.number);
    if undo || one.touches_words_of(other) {
        return Damaged::of_words(one.name, &once, one.refusal);
    }
    let counts =
        if (one.first, one.refusal.number) < (other.first, other.refusal.number) { one } else { other };
    let name = format!("{}, and {}", one.name, other.name);
    Damaged::of_words(&name, &other.applied(&once), counts.refusal)
}

/// An edit, and the table cut off somewhere.
pub fn edited_and_cut(plan: &Plan, random: &mut Random) -> Damaged {
    let edits = edits(plan);
    let edit = pick_edit(&edits, random);
    let words = edit.applied(&plan.words());
    let length = random.between(1, words.len() as u64) as usize;
    let cut = refusal_of_cut(&places(plan), 4 * length);
    let is_cut = length < words.len();
    // A cut record has its kind still, and so its 2, but none of its later faults.
    let edit_counts =
        edit.first + edit.kind.words() <= length || (edit.first < length && edit.refusal.number == 2);
    let refusal = if edit_counts || !is_cut { edit.refusal } else { cut };
    Damaged::of_words(&format!("{}, cut to {length} words", edit.name), &words[..length], refusal)
}

/// One record over each limit: 5 after its 4, before its 6 to 9.
pub fn over_limit(random: &mut Random) -> Vec<Damaged> {
    let kinds = [Kind::Bridge, Kind::HalfLink, Kind::Vid, Kind::Member, Kind::Traffic];
    kinds.into_iter().flat_map(|kind| one_over(kind, random)).collect()
}

fn one_over(kind: Kind, random: &mut Random) -> Vec<Damaged> {
    let plan = plan_with_one_over(kind, random);
    let words = plan.words();
    let place = places(&plan).into_iter().rfind(|place| place.kind == kind).expect("the kind has records");
    let refused = |number: u32| Refusal::of_record(number, kind, place.first);
    let with = |name: &str, change: &dyn Fn(&mut [u32]), number: u32| {
        let mut changed = words.clone();
        change(&mut changed[place.first..place.first + kind.words()]);
        Damaged::of_words(name, &changed, refused(number))
    };
    let earlier = words[place.first - kind.words()..place.first].to_vec();
    let mut family = vec![
        with("one over the limit", &|_| {}, 5),
        with("one over the limit, out of range", &|record| record[0] &= 0xF000_0000, 5),
        with("one over the limit, all zero but the kind", &|record| zero_but_kind(record), 5),
        with("one over the limit, a repeat", &|record| record.copy_from_slice(&earlier), 5),
    ];
    if kind.zero_bits() != 0 {
        let lowest_zero_bit = 1 << kind.zero_bits().trailing_zeros();
        family.push(with("one over the limit, zero bit", &|record| record[0] |= lowest_zero_bit, 4));
    }
    if kind.has_mark() {
        family.push(with("one over the limit, marked", &|record| record[0] |= MARK_BIT, 5));
    }
    family
}

fn zero_but_kind(record: &mut [u32]) {
    record[0] &= 0xF000_0000;
    record[1..].fill(0);
}

/// A plan without any fault but one record too many of a kind.
fn plan_with_one_over(kind: Kind, random: &mut Random) -> Plan {
    let bridges = if kind == Kind::Bridge { 65 } else { 64 };
    let mut plan = full_network(Shape::Ring, 64, random);
    plan.bridges = full_network(Shape::Ring, bridges, random).bridges;
    match kind {
        Kind::HalfLink => {
            let last = HalfLink { down: false, metric: 1, near: 0, far: 1, port: 4_095, link: 65_535 };
            plan.half_links.push(last)
        }
        Kind::Vid => plan.vids = (1..=17).map(|number| Vid { vid: number, index: 1 }).collect(),
        Kind::Member => {
            plan.half_links.truncate(2);
            plan.members = (0..65).map(member_of_own_service).collect();
        }
        Kind::Traffic => plan.traffic = traffic(&plan, Kind::Traffic.limit() + 1, random),
        Kind::Bridge | Kind::End => plan.half_links.clear(),
    }
    plan
}

fn member_of_own_service(number: u16) -> Member {
    Member { transmits: true, receives: true, service: 256 + u32::from(number), bridge: number % 64, vid: 1 }
}
