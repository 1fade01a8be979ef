//! The shapes of generated networks: which bridges a link joins.

use crate::random::Random;

#[derive(Clone, Copy, PartialEq, Eq, Debug)]
pub enum Shape {
    Apart,
    Line,
    Ring,
    RingWithChords,
    Star,
    Complete,
    Grid,
    Torus,
    Hypercube,
    Layers,
    Tree,
    Random,
    TwoParts,
    Diamonds,
    Middles,
}

impl Shape {
    /// Those of plans with any links.
    pub const ALL: [Shape; 13] = [
        Shape::Apart,
        Shape::Line,
        Shape::Ring,
        Shape::RingWithChords,
        Shape::Star,
        Shape::Complete,
        Shape::Grid,
        Shape::Torus,
        Shape::Hypercube,
        Shape::Layers,
        Shape::Tree,
        Shape::Random,
        Shape::TwoParts,
    ];

    /// The five that the benchmark measures.
    pub const MEASURED: [Shape; 5] =
        [Shape::RingWithChords, Shape::Torus, Shape::Hypercube, Shape::Layers, Shape::Random];

    /// Those of so many bridges in which, by hops of equal cost, many bridges have several
    /// ways to each other.
    pub fn with_many_ways(size: usize) -> Vec<Shape> {
        let mut shapes = vec![Shape::Diamonds, Shape::Middles];
        if size.is_multiple_of(2) {
            shapes.extend([Shape::Ring, Shape::Grid]);
        }
        if size >= 8 {
            shapes.push(Shape::Layers);
        }
        shapes
    }

    pub fn name(self) -> &'static str {
        match self {
            Shape::Apart => "apart",
            Shape::Line => "line",
            Shape::Ring => "ring",
            Shape::RingWithChords => "ring-with-chords",
            Shape::Star => "star",
            Shape::Complete => "complete",
            Shape::Grid => "grid",
            Shape::Torus => "torus",
            Shape::Hypercube => "hypercube",
            Shape::Layers => "layers",
            Shape::Tree => "tree",
            Shape::Random => "random",
            Shape::TwoParts => "two-parts",
            Shape::Diamonds => "diamonds",
            Shape::Middles => "middles",
        }
    }

    pub fn named(name: &str) -> Option<Shape> {
        Shape::ALL.into_iter().find(|shape| shape.name() == name)
    }

    /// The pairs of different bridges that the shape joins, each once. The shapes
    /// with random pairs have as many as are wanted, where there are so many.
    pub fn pairs(self, size: usize, wanted: usize, random: &mut Random) -> Vec<(usize, usize)> {
        let drawn = match self {
            Shape::Apart => Vec::new(),
            Shape::Line => chain(size, false),
            Shape::Ring => chain(size, true),
            Shape::RingWithChords => ring_with_chords(size, wanted, random),
            Shape::Star => (1..size).map(|leaf| (0, leaf)).collect(),
            Shape::Complete => all_pairs(0..size),
            Shape::Grid => grid(size, false),
            Shape::Torus => grid(size, true),
            Shape::Hypercube => hypercube(size),
            Shape::Layers => layers(size),
            Shape::Tree => (1..size).map(|leaf| (random.below(leaf), leaf)).collect(),
            Shape::Random => random_pairs(size, wanted, random),
            Shape::TwoParts => [all_pairs(0..size / 2), all_pairs(size / 2..size)].concat(),
            Shape::Diamonds => diamonds(size),
            Shape::Middles => (2..size).flat_map(|middle| [(0, middle), (middle, 1)]).collect(),
        };
        each_once(drawn)
    }
}

/// Drops loops and repeated pairs; the order is kept.
fn each_once(pairs: Vec<(usize, usize)>) -> Vec<(usize, usize)> {
    let mut kept: Vec<(usize, usize)> = Vec::new();
    for (from, to) in pairs {
        let pair = (from.min(to), from.max(to));
        if from != to && !kept.contains(&pair) {
            kept.push(pair);
        }
    }
    kept
}

fn chain(size: usize, closed: bool) -> Vec<(usize, usize)> {
    let last = if closed { size } else { size.saturating_sub(1) };
    (0..last).map(|bridge| (bridge, (bridge + 1) % size)).collect()
}

fn ring_with_chords(size: usize, wanted: usize, random: &mut Random) -> Vec<(usize, usize)> {
    let ring = chain(size, true);
    let mut pairs = each_once([ring, random_pairs(size, usize::MAX, random)].concat());
    pairs.truncate(wanted.max(size));
    pairs
}

fn all_pairs(bridges: std::ops::Range<usize>) -> Vec<(usize, usize)> {
    bridges.clone().flat_map(|from| (from + 1..bridges.end).map(move |to| (from, to))).collect()
}

/// Rows of equal width; a torus also joins the ends of rows and columns and the
/// diagonals, so that 8 by 8 bridges have 256 links.
fn grid(size: usize, torus: bool) -> Vec<(usize, usize)> {
    let width = (1..=size).find(|width| width * width >= size && size.is_multiple_of(*width)).unwrap_or(1);
    let height = size / width;
    let steps: &[(usize, usize)] =
        if torus { &[(1, 0), (0, 1), (1, 1), (width - 1, 1)] } else { &[(1, 0), (0, 1)] };
    let mut pairs = Vec::new();
    for row in 0..height {
        for column in 0..width {
            for (right, down) in steps {
                let (across, below) = (column + right, row + down);
                if torus || (across < width && below < height) {
                    pairs.push((row * width + column, below % height * width + across % width));
                }
            }
        }
    }
    pairs
}

/// Bridges whose numbers differ in one bit, and two further sets of pairs that
/// differ in all bits and in the three low ones: 256 links for 64 bridges.
fn hypercube(size: usize) -> Vec<(usize, usize)> {
    let bits = size.next_power_of_two().trailing_zeros();
    let single = (0..bits).map(|bit| 1 << bit);
    let differences: Vec<usize> = single.chain([size.next_power_of_two() - 1, 7]).collect();
    let pairs =
        (0..size).flat_map(|from| differences.iter().map(move |difference| (from, from ^ difference)));
    pairs.filter(|&(_, to)| to < size).collect()
}

/// Layers of four, each bridge joined to all of the next layer, the last layer
/// to the first: 256 links for 64 bridges.
fn layers(size: usize) -> Vec<(usize, usize)> {
    let count = size / 4;
    let joins = (0..count).flat_map(|layer| (0..16).map(move |pair| (layer, pair / 4, pair % 4)));
    joins.map(|(layer, near, far)| (layer * 4 + near, (layer + 1) % count * 4 + far)).collect()
}

/// A row of diamonds, each with its last bridge the next one's first.
fn diamonds(size: usize) -> Vec<(usize, usize)> {
    let around =
        |first: usize| [(0, 1), (0, 2), (1, 3), (2, 3)].map(|(one, other)| (first + one, first + other));
    (0..size).step_by(3).flat_map(around).filter(|&(_, other)| other < size).collect()
}

fn random_pairs(size: usize, wanted: usize, random: &mut Random) -> Vec<(usize, usize)> {
    let mut pairs = all_pairs(0..size);
    random.shuffle(&mut pairs);
    pairs.truncate(wanted);
    pairs
}
