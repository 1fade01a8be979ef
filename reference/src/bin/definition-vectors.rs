//! Writes a module of the proof checker's language that holds the definitions of
//! documents 01 and 02 in `crates/rule` to the reference: for seeded tables, the diamond
//! with overloaded bridges, with half-links that are down and with extension bits, parallel
//! links of which one is down, and a bridge with 61 services, what each call gives, and for
//! seeded identifiers what masking makes of them, as equations that the checker computes.
//! The script `compare-definitions` has it checked.

use reference::arguments::{Arguments, Usage};
use reference::check::check;
use reference::checked::Checked;
use reference::entries::entries;
use reference::generate::damage::damaged;
use reference::generate::sub_tlvs::{damaged_sub_tlv, valid_sub_tlv};
use reference::generate::valid::{plan, Size};
use reference::loads::Loads;
use reference::lookup::lookup;
use reference::path::{exported_path_cost, path};
use reference::properties::extensions::EXTENDED_DIAMONDS;
use reference::properties::fixture::{diamond, down, links_7_and_9, overloaded};
use reference::random::Random;
use reference::rank::{masked, without_extension};
use reference::records::{Kind, Member, Plan, EXTENSION_BITS};
use reference::refusal::Refusal;
use reference::rules::Rules;
use reference::service_reading::read_services;
use reference::service_writing::{write_services, LONGEST_SUB_TLV, LONGEST_WRITING};
use reference::sub_tlv::{HEADING, SERVICE};
use reference::tree::{tree, TreeLists};

const USAGE: Usage = Usage {
    text: "definition-vectors [--seed N] [--first N] [--count N] [--bridges N]",
    values: &["seed", "first", "count", "bridges"],
    flags: &[],
};

/// Longer tables take the checker too long.
const LONGEST: usize = 1_200;

/// Seeded sub-TLVs of more bytes are left out: the checker compares each service with all
/// before it.
const MOST_SUB_TLV_BYTES: usize = 60;

/// Further traffic records of a seeded table are left out for the same reason.
const MOST_TRAFFIC: usize = 4;

/// Which bridges of the diamond are overloaded.
const OVERLOADED: [&[usize]; 3] = [&[1], &[1, 2], &[0, 3]];

/// Which half-links of the diamond are down: the far half of link 0-1, and with it the
/// near half of link 0-2.
const DOWN: [&[usize]; 2] = [&[1], &[1, 4]];

/// How many of the diamonds with extension bits are compared.
const EXTENDED: usize = 4;

/// Seeded identifiers for each ECT index.
const IDENTIFIERS: usize = 2;

/// What the lent lists hold before a call.
const OLD: u32 = 7;
const OLD_BYTE: u8 = 7;

const HEADER: &str = "-- Made by reference/compare-definitions. Assumes nothing.
use Rattle.std.specs.Prelude.{ℕ, ◌≡◌, refl}
use mathlib.Core.List.{List, [], ◌∷◌, ◌++◌, flat_map}
use Rattle.std.proofs.Math.Option.{none, some}
use Rattle.lists.specs.Lists.{rising, selected, any_passes, first_passing, lowest_by}
use Rattle.graph.specs.Order.{insert_upward, sorted, is_lower}
use Rattle.graph.specs.Graph.{cost_onward}
use Rattle.graph.specs.Chosen.{neighbours, onward, paths, chosen}
use Rattle.rule.specs.Words.{words_of}
use Rattle.rule.specs.Records.{layout_of}
use Rattle.graph.specs.Pairs.{joined_pairs, takes}
use Rattle.rule.specs.Outcome.{Outcome, answered, refused}
use Rattle.rule.specs.Plan.{Plan}
use Rattle.rule.specs.Check.{lowest_fault, read_on, verdict}
use Rattle.rule.specs.Links.{links_of, usable_links, count_usable, links_between, hop_link, graph_of}
use Rattle.rule.specs.Loads.{own_indexes, traffic_path, load_of, total_load, lost_load}
use Rattle.rule.specs.Identifiers.{without_extension, masked_bytes, masked_identifier, key_of}
use Rattle.rule.specs.Paths.{chosen_path}
use Rattle.rule.specs.Entries.{entry_list_of, entries_of, individual_entries, group_entries, listed_ports, receiver_ports, leaving_port}
use Rattle.rule.specs.Calls.{check_outcome, path_answer, path_outcome, entries_answer, entries_outcome, tree_outcome, tree_of, last_but_one}
use Rattle.rule.specs.Lookup.{lookup_outcome, matching_ports, faulty_list, entries_in}
use Rattle.rule.specs.Exported.{exported_path_cost}
use Rattle.rule.specs.Services.{sub_tlv_words, after_services, read_services_answer, read_services_outcome, sub_tlvs, write_services_answer, write_services_outcome}

-- Lower bridge, higher bridge and load of each joined pair, then total and lost.
abbrev loads : Outcome Plan → List ℕ
loads (answered p) =
    flat_map (λ q. q.lower ∷ q.higher ∷ load_of p (own_indexes p) (p.traffic) q ∷ []) (joined_pairs (graph_of p))
    ++ (total_load p (own_indexes p) (p.traffic) ∷ lost_load p (own_indexes p) (p.traffic) ∷ [])
loads (refused number kind at) = []

-- The masked identifier of a bridge by an ECT index.
abbrev key_at : Outcome Plan → ℕ → ℕ → ℕ
key_at (answered p) index u = key_of p index u
key_at (refused number kind at) index u = 0
";

/// What the checker opens to compute an outcome.
const UNFOLDING: &str = "unfolding words_of layout_of lowest_fault read_on verdict links_of usable_links count_usable links_between hop_link
  masked_bytes masked_identifier chosen_path entry_list_of entries_of individual_entries group_entries listed_ports receiver_ports leaving_port
  check_outcome path_answer path_outcome entries_answer entries_outcome tree_outcome tree_of last_but_one lookup_outcome matching_ports
  faulty_list entries_in exported_path_cost sub_tlv_words after_services read_services_answer read_services_outcome sub_tlvs write_services_answer
  write_services_outcome joined_pairs takes traffic_path load_of total_load lost_load rising selected any_passes first_passing lowest_by insert_upward sorted is_lower cost_onward neighbours onward paths chosen flat_map";

fn main() {
    let arguments = Arguments::of_process(&USAGE);
    let seed = arguments.number("seed", 1);
    let first = arguments.number("first", 0);
    let bridges = arguments.number("bridges", 4) as usize;
    println!("{HEADER}");
    let marked_bridges = OVERLOADED.map(|bridges| overloaded(diamond([0x8000; 4]), bridges));
    let marked_half_links = DOWN.map(|half_links| down(diamond([0x8000; 4]), half_links));
    for (number, plan) in marked_bridges.into_iter().chain(marked_half_links).enumerate() {
        Vectors::new(format!("diamond{number}"), Random::new(seed)).of_diamond(plan, 1);
    }
    for (number, (priorities, _)) in (0..).zip(&EXTENDED_DIAMONDS[..EXTENDED]) {
        Vectors::new(format!("extended{number}"), Random::for_case(seed, number)).of_extensions(*priorities);
    }
    Vectors::new("identifiers".to_string(), Random::new(seed)).of_identifiers();
    Vectors::new("parallel".to_string(), Random::new(seed)).of_parallel_links();
    Vectors::new("members".to_string(), Random::new(seed)).of_members();
    for number in first..first + arguments.number("count", 50) {
        let mut vectors = Vectors::new(format!("table{number}"), Random::for_case(seed, number));
        if number % 2 == 0 {
            let size = Size::up_to(bridges, &mut vectors.random);
            let mut plan = plan(size, &mut vectors.random);
            plan.traffic.truncate(MOST_TRAFFIC);
            vectors.of_plan(&plan);
        } else {
            vectors.of_damaged();
        }
    }
}

/// The equations about one table.
struct Vectors {
    random: Random,
    name: String,
    written: usize,
}

impl Vectors {
    fn new(name: String, random: Random) -> Vectors {
        Vectors { random, name, written: 0 }
    }

    /// The diamond with marks or extension bits, which few seeded tables have on their
    /// paths: by the first indexes paths from end to end and across, and a tree; the
    /// entries of an end.
    fn of_diamond(&mut self, mut plan: Plan, indexes: usize) {
        plan.vids.truncate(indexes);
        let member = |bridge: u16| Member { transmits: true, receives: true, service: 256, bridge, vid: 1 };
        plan.members = [0, 3].map(member).to_vec();
        let table = plan.bytes();
        self.table(&table);
        for vid in plan.vids.iter().map(|record| record.vid.into()) {
            for (from, to) in [(0, 3), (1, 2)] {
                self.path(&table, (vid, from, to), plan.bridges.len());
            }
            self.tree(&table, vid, 0, plan.bridges.len());
        }
        self.entries(&table, 0);
    }

    /// The diamond with these priorities by index 1 and 2, and the masked identifiers of
    /// its bridges by these and one more.
    fn of_extensions(&mut self, priorities: [u16; 4]) {
        let plan = diamond(priorities);
        self.of_diamond(plan.clone(), 2);
        for index in [1, 2, self.random.between(3, 16) as u16] {
            for (number, bridge) in plan.bridges.iter().enumerate() {
                let cleared = without_extension(Rules::AS_WRITTEN, bridge.identifier());
                let call = format!("key_at (verdict {}) {index} {number}", self.name);
                self.equation(&call, &masked(Rules::AS_WRITTEN, cleared, index).to_string());
            }
        }
    }

    /// Identifiers with extension bits for every index: without them, masked, and both.
    fn of_identifiers(&mut self) {
        for index in (1..=16).flat_map(|index| [index; IDENTIFIERS]) {
            let extension = self.random.between(1, EXTENSION_BITS.into()) << 48;
            let identifier = self.random.number() | extension;
            let cleared = without_extension(Rules::AS_WRITTEN, identifier);
            let masked = |identifier: u64| masked(Rules::AS_WRITTEN, identifier, index).to_string();
            self.equation(&format!("without_extension {identifier}"), &cleared.to_string());
            self.equation(&format!("masked_identifier {index} {identifier}"), &masked(identifier));
            let both = format!("masked_identifier {index} (without_extension {identifier})");
            self.equation(&both, &masked(cleared));
        }
    }

    /// Links 7 of cost 10 and 9 of cost 12, one half of link 7 down.
    fn of_parallel_links(&mut self) {
        let mut plan = down(links_7_and_9([10, 12]), &[1]);
        plan.vids.truncate(1);
        let table = plan.bytes();
        self.table(&table);
        self.path(&table, (1, 0, 1), plan.bridges.len());
        self.entries(&table, 0);
    }

    /// 61 members of one bridge and VID, more than one sub-TLV holds: written, and each
    /// sub-TLV read.
    fn of_members(&mut self) {
        let mut plan = diamond([0x8000; 4]);
        plan.vids.truncate(1);
        let member = |place: u16| Member {
            transmits: place.is_multiple_of(2),
            receives: place.is_multiple_of(3),
            service: 500 - u32::from(place),
            bridge: 2,
            vid: 1,
        };
        plan.members = (0..61).map(member).collect();
        let table = plan.bytes();
        self.table(&table);
        for sub_tlv in self.writing(&table, 2, 1).chunks(LONGEST_SUB_TLV) {
            self.reading(&table, sub_tlv, words_of(sub_tlv));
        }
    }

    fn of_damaged(&mut self) {
        let table = damaged(&mut self.random).table;
        if table.len() <= LONGEST {
            self.table(&table);
        }
    }

    fn of_plan(&mut self, plan: &Plan) {
        let table = plan.bytes();
        self.table(&table);
        let bridges = plan.bridges.len() as u32;
        for vid in &plan.vids {
            let vid = u32::from(vid.vid);
            for _ in 0..3 {
                let question = (
                    vid,
                    self.random.between(0, bridges.into()) as u32,
                    self.random.between(0, bridges.into()) as u32,
                );
                let places = self.random.below(plan.bridges.len() + 2);
                self.path(&table, question, places);
            }
            let from = self.random.between(0, bridges.into()) as u32;
            self.tree(&table, vid, from, plan.bridges.len());
        }
        for bridge in 0..=bridges {
            self.entries(&table, bridge);
        }
        self.services(plan, &table);
        self.loads(&table);
    }

    /// What each joined pair carries, total and lost.
    fn loads(&mut self, table: &[u8]) {
        let checked = Checked::new(Rules::AS_WRITTEN, table).expect("a valid plan is accepted");
        let Loads { pairs, total, lost } = Loads::of(&checked);
        let numbers = pairs.iter().flat_map(|&((lower, higher), load)| [lower as u64, higher as u64, load]);
        let expected: String = numbers
            .chain([total, lost])
            .map(|number| format!("{number} ∷ "))
            .chain(["[]".to_string()])
            .collect();
        self.equation(&format!("loads (verdict {})", self.name), &expected);
    }

    /// For each VID a bridge written, which the table lacks at times, and sub-TLVs read.
    fn services(&mut self, plan: &Plan, table: &[u8]) {
        for record in &plan.vids {
            let bridge = self.random.between(0, plan.bridges.len() as u64) as u32;
            self.writing(table, bridge, record.vid.into());
            if plan.bridges.is_empty() {
                continue;
            }
            let valid = valid_sub_tlv(plan, &mut self.random).bytes();
            let damaged = damaged_sub_tlv(plan, &mut self.random);
            for sub_tlv in [valid, damaged].iter().filter(|bytes| bytes.len() <= MOST_SUB_TLV_BYTES) {
                let places = (words_of(sub_tlv) + 2).saturating_sub(self.random.below(4));
                self.reading(table, sub_tlv, places);
            }
        }
    }

    fn reading(&mut self, table: &[u8], sub_tlv: &[u8], places: usize) {
        let mut lent = vec![OLD; places];
        let before = list(&lent);
        let given = read_services(Rules::AS_WRITTEN, table, sub_tlv, &mut lent);
        let call = format!("read_services_outcome {} ({}) ({before})", self.name, byte_list(sub_tlv));
        let values = outcome(given.map(|words| words.to_string()));
        self.equation(&call, &format!("({values}, {})", list(&lent)));
    }

    /// Gives what is written where the list is long enough.
    fn writing(&mut self, table: &[u8], bridge: u32, vid: u32) -> Vec<u8> {
        let mut whole = vec![OLD_BYTE; LONGEST_WRITING];
        let needed = write_services(Rules::AS_WRITTEN, table, bridge, vid, &mut whole).unwrap_or(0);
        whole.truncate(needed);
        let mut lent = vec![OLD_BYTE; (needed + 2).saturating_sub(self.random.below(4))];
        let before = byte_list(&lent);
        let given = write_services(Rules::AS_WRITTEN, table, bridge, vid, &mut lent);
        let call = format!("write_services_outcome {} {bridge} {vid} ({before})", self.name);
        let values = outcome(given.map(|bytes| bytes.to_string()));
        self.equation(&call, &format!("({values}, {})", byte_list(&lent)));
        whole
    }

    /// Declares the table, and what check gives.
    fn table(&mut self, table: &[u8]) {
        println!("abbrev {0} : List ℕ\n{0} = {1}\n", self.name, byte_list(table));
        let counts = check(Rules::AS_WRITTEN, table).map(|counts| {
            format!(
                "(record {{ bridges = {}; «half_links» = {}; «usable_links» = {}; vids = {}; members = {} }})",
                counts.bridges, counts.half_links, counts.usable_links, counts.vids, counts.members
            )
        });
        self.equation(&format!("check_outcome {}", self.name), &outcome(counts));
    }

    fn path(&mut self, table: &[u8], question: (u32, u32, u32), places: usize) {
        let (vid, from, to) = question;
        let mut lent = vec![OLD; places];
        let before = list(&lent);
        let answer = path(Rules::AS_WRITTEN, table, question, &mut lent);
        let values =
            answer.map(|given| format!("(record {{ cost = {}; hops = {} }})", given.cost, given.hops));
        let call = format!("path_outcome {} {vid} {from} {to} ({before})", self.name);
        self.equation(&call, &format!("({}, {})", outcome(values), list(&lent)));
        let exported = exported_path_cost(Rules::AS_WRITTEN, table, vid, from, to);
        self.equation(&format!("exported_path_cost {} {vid} {from} {to}", self.name), &exported.to_string());
    }

    fn tree(&mut self, table: &[u8], vid: u32, from: u32, bridges: usize) {
        let mut lists = [(); 3].map(|()| {
            vec![OLD; bridges + self.random.below(2) - usize::from(self.random.one_in(9) && bridges > 0)]
        });
        let before = lists.clone().map(|lent| format!("({})", list(&lent))).join(" ");
        let [costs, hops, before_last] = &mut lists;
        let given = tree(Rules::AS_WRITTEN, table, vid, from, TreeLists { costs, hops, before_last });
        let after = lists.map(|lent| list(&lent)).join(", ");
        let call = format!("tree_outcome {} {vid} {from} {before}", self.name);
        self.equation(&call, &format!("({}, {after})", outcome(given.map(|size| size.to_string()))));
    }

    fn entries(&mut self, table: &[u8], bridge: u32) {
        let mut whole = vec![OLD; 20_000];
        let needed = entries(Rules::AS_WRITTEN, table, bridge, &mut whole).unwrap_or(0);
        whole.truncate(needed);
        let mut lent = vec![OLD; (needed + 2).saturating_sub(self.random.below(4))];
        let before = list(&lent);
        let given = entries(Rules::AS_WRITTEN, table, bridge, &mut lent);
        let call = format!("entries_outcome {} {bridge} ({before})", self.name);
        self.equation(
            &call,
            &format!("({}, {})", outcome(given.map(|words| words.to_string())), list(&lent)),
        );
        self.lookups(whole);
    }

    /// Two lookups in an entry list, which is damaged at times.
    fn lookups(&mut self, mut words: Vec<u32>) {
        for _ in 0..2 {
            let asked = words.chunks_exact(3).nth(self.random.below(words.len() / 3 + 1));
            let (vid, address) = asked.map_or((1, 2), |entry| {
                (entry[0] >> 16 & 0xFFF, u64::from(entry[1]) << 32 | u64::from(entry[2]))
            });
            let n = self.random.below(3) as u32;
            let port = lookup(Rules::AS_WRITTEN, &words, vid, address, n);
            let values = port.map(|port| port.map_or("none".to_string(), |port| format!("(some {port})")));
            let call = format!("lookup_outcome ({}) {vid} {address} {n}", list(&words));
            self.equation(&call, &outcome(values));
            if !words.is_empty() {
                let place = self.random.below(words.len());
                words[place] ^= 1 << self.random.below(32);
            }
        }
    }

    fn equation(&mut self, computed: &str, expected: &str) {
        let name = format!("{}-{}", self.name, self.written);
        println!("{name} : {computed} ≡ {expected}\n{UNFOLDING}\n{name} = refl\n");
        self.written += 1;
    }
}

fn outcome(given: Result<String, Refusal>) -> String {
    match given {
        Ok(values) => format!("answered {values}"),
        Err(refusal) => {
            let kind = refusal.kind.map_or("none".to_string(), |kind| format!("(some {})", kind.tag() >> 28));
            format!("refused {} {kind} {}", refusal.number, refusal.word)
        }
    }
}

fn list(numbers: &[u32]) -> String {
    numbers.iter().map(|number| format!("{number} ∷ ")).chain(["[]".to_string()]).collect()
}

fn byte_list(bytes: &[u8]) -> String {
    list(&bytes.iter().map(|&byte| byte.into()).collect::<Vec<u32>>())
}

/// How many words the member records of a sub-TLV have.
fn words_of(sub_tlv: &[u8]) -> usize {
    Kind::Member.words() * (sub_tlv.len().saturating_sub(HEADING) / SERVICE)
}
