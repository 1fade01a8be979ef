//! Edits of one record of a valid plan that make it faulty, each with the refusal
//! that it leads to. Every record, field and limit of a range is edited.

use crate::records::{
    Bridge, HalfLink, Kind, Member, Plan, Traffic, Vid, EXTENSION_BITS, GROUP_BIT, MARK_BIT,
};
use crate::refusal::Refusal;

/// A record of a plan: its kind, its number among its kind, its first word.
#[derive(Clone, Copy, Debug)]
pub struct Place {
    pub kind: Kind,
    pub number: usize,
    pub first: usize,
}

/// The records of a plan in their order, the end record included.
pub fn places(plan: &Plan) -> Vec<Place> {
    let mut first = 0;
    let mut places = Vec::new();
    for kind in Kind::ALL {
        let records = if kind == Kind::End { 1 } else { plan.count(kind) };
        for number in 0..records {
            places.push(Place { kind, number, first });
            first += kind.words();
        }
    }
    places
}

pub struct Edit {
    pub name: &'static str,
    pub kind: Kind,
    pub first: usize,
    pub refusal: Refusal,
    /// New values of the record's words, where they change.
    changes: Vec<(usize, u32)>,
}

impl Edit {
    pub fn applied(&self, words: &[u32]) -> Vec<u32> {
        let mut words = words.to_vec();
        self.changes.iter().for_each(|&(place, word)| words[place] = word);
        words
    }

    pub fn touches_words_of(&self, other: &Edit) -> bool {
        self.changes.iter().any(|change| other.changes.iter().any(|others| others.0 == change.0))
    }
}

/// All edits of all records.
pub fn edits(plan: &Plan) -> Vec<Edit> {
    let words = plan.words();
    let places = places(plan);
    let mut before = None;
    let mut all = Vec::new();
    for place in places {
        let mut editor = Editor { plan, words: &words, place, before, edits: Vec::new() };
        editor.edit_kind();
        editor.edit_zero_bits();
        match place.kind {
            Kind::Bridge => editor.edit_bridge(),
            Kind::HalfLink => editor.edit_half_link(),
            Kind::Vid => editor.edit_vid(),
            Kind::Member => editor.edit_member(),
            Kind::Traffic => editor.edit_traffic(),
            Kind::End => editor.edit_end(),
        }
        all.extend(editor.edits);
        before = Some(place.kind);
    }
    all
}

/// The edits of one record.
struct Editor<'a> {
    plan: &'a Plan,
    words: &'a [u32],
    place: Place,
    before: Option<Kind>,
    edits: Vec<Edit>,
}

impl Editor<'_> {
    fn add(&mut self, name: &'static str, number: u32, record: &[u32]) {
        self.add_with_earlier(name, number, record, &[]);
    }

    /// Adds an edit that also changes the words at places before the record.
    fn add_with_earlier(
        &mut self,
        name: &'static str,
        number: u32,
        record: &[u32],
        earlier: &[(usize, u32)],
    ) {
        let Place { kind, first, .. } = self.place;
        let new = record.iter().enumerate().map(|(offset, &word)| (first + offset, word));
        let mut changes: Vec<_> = new.filter(|&(place, word)| self.words[place] != word).collect();
        assert!(!changes.is_empty(), "edit '{name}' changes the record");
        changes.extend(earlier);
        let concerned = if number == 2 { None } else { Some(kind) };
        let refusal = Refusal { number, kind: concerned, word: first };
        self.edits.push(Edit { name, kind, first, refusal, changes });
    }

    fn first_word(&self) -> u32 {
        self.words[self.place.first]
    }

    /// Unknown kinds, and known ones below that of the record before.
    fn edit_kind(&mut self) {
        let lowest = self.before.map_or(0, |kind| kind as u32);
        let unknown = |&kind: &u32| Kind::of(kind << 28).is_none();
        let rest = self.first_word() & 0x0FFF_FFFF;
        for kind in (0..16).filter(unknown) {
            self.add("unknown kind", 2, &[kind << 28 | rest]);
        }
        for kind in Kind::ALL.into_iter().filter(|&kind| (kind as u32) < lowest) {
            self.add("lower kind", 2, &[kind.tag() | rest]);
        }
    }

    /// Every zero bit alone, and one with the rest of its word zero; of a kind that has
    /// a mark also with the other mark.
    fn edit_zero_bits(&mut self) {
        let zero_bits = self.place.kind.zero_bits();
        for bit in (0..32).map(|bit| 1 << bit).filter(|bit| zero_bits & bit != 0) {
            self.add("zero bit set", 4, &[self.first_word() | bit]);
            self.add("zero bit set, field zero", 4, &[self.place.kind.tag() | bit]);
            if self.place.kind.has_mark() {
                self.add("zero bit set, other mark", 4, &[self.first_word() ^ MARK_BIT | bit]);
            }
        }
    }

    /// The places of the first record of the kind and of the one before this.
    fn earlier(&self) -> Vec<usize> {
        let number = self.place.number;
        let mut places = vec![0, number.saturating_sub(1)];
        places.dedup();
        places.retain(|&place| place < number);
        places
    }

    fn edit_bridge(&mut self) {
        let bridge = self.plan.bridges[self.place.number];
        self.add("SPsourceID 0", 6, &Bridge { source_id: 0, ..bridge }.words());
        self.add("address zero", 6, &Bridge { address: 0, ..bridge }.words());
        self.add("group address", 6, &Bridge { address: bridge.address | GROUP_BIT, ..bridge }.words());
        for place in self.earlier() {
            let Bridge { address, source_id, priority, .. } = self.plan.bridges[place];
            self.add("address repeated", 8, &Bridge { address, ..bridge }.words());
            self.add("identifier repeated", 8, &Bridge { address, priority, ..bridge }.words());
            let other_priority = Bridge { address, priority: !priority, ..bridge };
            self.add("address repeated, other priority", 8, &other_priority.words());
            let other_extension = Bridge { address, priority: priority ^ EXTENSION_BITS, ..bridge };
            self.add("address repeated, other extension", 8, &other_extension.words());
            self.add("SPsourceID repeated", 8, &Bridge { source_id, ..bridge }.words());
            self.repeat_with_other_overload(bridge, self.plan.bridges[place]);
        }
    }

    /// A repeat is one whether both bridges are overloaded or one of them.
    fn repeat_with_other_overload(&mut self, bridge: Bridge, earlier: Bridge) {
        let Bridge { address, source_id, .. } = earlier;
        let marked = Bridge { overloaded: !earlier.overloaded, ..bridge };
        self.add("address repeated, other overload", 8, &Bridge { address, ..marked }.words());
        self.add("SPsourceID repeated, other overload", 8, &Bridge { source_id, ..marked }.words());
    }

    fn edit_half_link(&mut self) {
        let half = self.plan.half_links[self.place.number];
        let unknown = self.plan.bridges.len() as u16;
        for down in [false, true] {
            self.add("metric 0", 6, &HalfLink { down, metric: 0, ..half }.words());
        }
        for port in [0, 4_096, 65_535] {
            self.add("port out of range", 6, &HalfLink { port, ..half }.words());
        }
        self.add("link number 0", 6, &HalfLink { link: 0, ..half }.words());
        for bridge in [unknown, 65_535] {
            self.add("unknown near bridge", 7, &HalfLink { near: bridge, ..half }.words());
            self.add("unknown far bridge", 7, &HalfLink { far: bridge, ..half }.words());
        }
        self.add("near bridge is far bridge", 7, &HalfLink { near: half.far, ..half }.words());
        self.add("far bridge is near bridge", 7, &HalfLink { far: half.near, ..half }.words());
        for place in self.earlier() {
            self.repeat_port(half, place);
            self.take_link_number(half, self.plan.half_links[place].link);
        }
        self.unmake_mirror(half);
    }

    /// An edit that takes what earlier half-links have, whether it is down or they are:
    /// as it is, with its own other mark, and with their other marks.
    fn add_with_marks(&mut self, name: &'static str, number: u32, half: HalfLink, earlier: &[usize]) {
        self.add(name, number, &half.words());
        self.add(name, number, &HalfLink { down: !half.down, ..half }.words());
        let Place { number: own, first, .. } = self.place;
        let first_word = |place: usize| first - (own - place) * Kind::HalfLink.words();
        let other_mark = |&place: &usize| (first_word(place), self.words[first_word(place)] ^ MARK_BIT);
        let other_marks: Vec<_> = earlier.iter().map(other_mark).collect();
        self.add_with_earlier(name, number, &half.words(), &other_marks);
    }

    fn repeat_port(&mut self, half: HalfLink, place: usize) {
        let HalfLink { near, port, .. } = self.plan.half_links[place];
        if near != half.far {
            let repeat = HalfLink { near, port, ..half };
            self.add_with_marks("near bridge with port repeated", 8, repeat, &[place]);
        }
    }

    /// The places of the earlier half-links of a link number.
    fn earlier_of_link(&self, link: u16) -> Vec<usize> {
        let of_link = |&place: &usize| self.plan.half_links[place].link == link;
        (0..self.place.number).filter(of_link).collect()
    }

    fn take_link_number(&mut self, half: HalfLink, link: u16) {
        if link == half.link {
            return;
        }
        let earlier = self.earlier_of_link(link);
        let other = HalfLink { link, ..half };
        match earlier[..] {
            [_, _] => self.add_with_marks("third half-link", 9, other, &earlier),
            [first] if !half.mirrors(&self.plan.half_links[first]) => {
                self.add_with_marks("no mirror by link number", 9, other, &earlier)
            }
            _ => {}
        }
    }

    /// A second half-link with another far bridge, or in the first one's direction.
    fn unmake_mirror(&mut self, half: HalfLink) {
        let earlier = self.earlier_of_link(half.link);
        if earlier.is_empty() {
            return;
        }
        let bridges = self.plan.bridges.len() as u16;
        if let Some(far) = (0..bridges).find(|&bridge| bridge != half.near && bridge != half.far) {
            self.add_with_marks("no mirror by far bridge", 9, HalfLink { far, ..half }, &earlier);
        }
        let is_free = |port: &u16| {
            !self.plan.half_links.iter().any(|other| (other.near, other.port) == (half.far, *port))
        };
        if let Some(port) = (1..=4_095).find(is_free) {
            let back = HalfLink { near: half.far, far: half.near, port, ..half };
            self.add_with_marks("no mirror by direction", 9, back, &earlier);
        }
    }

    fn edit_vid(&mut self) {
        let record = self.plan.vids[self.place.number];
        for vid in [0, 4_095] {
            self.add("VID out of range", 6, &Vid { vid, ..record }.words());
        }
        for index in [0, 17, 65_535] {
            self.add("ECT index out of range", 6, &Vid { index, ..record }.words());
        }
        for place in self.earlier() {
            self.add("VID repeated", 8, &Vid { vid: self.plan.vids[place].vid, ..record }.words());
        }
    }

    fn edit_member(&mut self) {
        let member = self.plan.members[self.place.number];
        for service in [0, 255, 16_777_215] {
            self.add("I-SID out of range", 6, &Member { service, ..member }.words());
        }
        for vid in [0, 4_095, 4_096, 65_535] {
            self.add("member's VID out of range", 6, &Member { vid, ..member }.words());
        }
        for bridge in [self.plan.bridges.len() as u16, 65_535] {
            self.add("unknown member bridge", 7, &Member { bridge, ..member }.words());
        }
        if let Some(vid) = self.unknown_vid() {
            self.add("unknown member VID", 7, &Member { vid, ..member }.words());
        }
        for place in self.earlier() {
            let Member { service, bridge, vid, .. } = self.plan.members[place];
            self.add("member repeated", 8, &Member { service, bridge, vid, ..member }.words());
        }
    }

    /// The least VID without a record.
    fn unknown_vid(&self) -> Option<u16> {
        (1..=4_094).find(|&vid| self.plan.index_of_vid(vid).is_none())
    }

    fn edit_traffic(&mut self) {
        let traffic = self.plan.traffic[self.place.number];
        self.add("amount 0", 6, &Traffic { amount: 0, ..traffic }.words());
        for vid in [0, 4_095] {
            self.add("traffic VID out of range", 6, &Traffic { vid, ..traffic }.words());
        }
        if let Some(vid) = self.unknown_vid() {
            self.add("unknown traffic VID", 7, &Traffic { vid, ..traffic }.words());
        }
        for bridge in [self.plan.bridges.len() as u16, 65_535] {
            self.add("unknown from", 7, &Traffic { from: bridge, ..traffic }.words());
            self.add("unknown to", 7, &Traffic { to: bridge, ..traffic }.words());
        }
        self.add("from is to", 7, &Traffic { from: traffic.to, ..traffic }.words());
        self.add("to is from", 7, &Traffic { to: traffic.from, ..traffic }.words());
        for place in self.earlier() {
            let earlier = self.plan.traffic[place];
            self.add("traffic repeated", 8, &earlier.words());
            let other_amount = Traffic { amount: earlier.amount % u16::MAX + 1, ..earlier };
            self.add("traffic repeated, other amount", 8, &other_amount.words());
        }
    }

    fn edit_end(&mut self) {
        let count = self.place.first as u32;
        for wrong in [count + 1, count.wrapping_sub(1) & 0x0FFF_FFFF, 0x0FFF_FFFF, 4 * count + 4] {
            self.add("wrong end count", 6, &[Kind::End.tag() | wrong]);
        }
    }
}
