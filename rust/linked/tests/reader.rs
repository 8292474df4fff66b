//! The proved reader against the Rust reader.
//!
//! Each family of sheets is compared once, whichever tests ask for it.

use std::collections::{BTreeMap, BTreeSet};
use std::sync::LazyLock;

use linked::read;
use reference::edges::edges;
use reference::encode::{encode, set_bit};
use reference::random::{damaged, good, Random, Size};
use reference::sheet::Objective;
use reference::states::excluded;

static GOOD: LazyLock<Comparison> = LazyLock::new(compare_good);
static DAMAGED: LazyLock<Comparison> = LazyLock::new(compare_damaged);
static FLIPPED_OR_CUT: LazyLock<Comparison> = LazyLock::new(compare_flipped_or_cut);
static RANDOM: LazyLock<Comparison> = LazyLock::new(compare_random);
static EDGES: LazyLock<Comparison> = LazyLock::new(compare_edges);

/// The sheets on which the two readers were found to agree, with their answers.
#[derive(Default)]
struct Comparison {
    answers: BTreeMap<Vec<u8>, u8>,
}

impl Comparison {
    fn add(&mut self, bytes: Vec<u8>) {
        let number = reference::read::read(&bytes).map_or_else(|refusal| refusal.number(), |_| 0);
        assert_eq!(read(&bytes), number, "sheet {bytes:02x?}");
        self.answers.insert(bytes, number);
    }

    /// How many different sheets had each answer.
    fn counts(&self) -> [usize; 17] {
        let mut counts = [0; 17];
        for &number in self.answers.values() {
            counts[usize::from(number)] += 1;
        }
        counts
    }

    /// Asserts that each of these answers was met.
    fn assert_met(&self, numbers: impl IntoIterator<Item = usize>) {
        let counts = self.counts();
        for number in numbers {
            assert!(
                counts[number] > 0,
                "no sheet has answer {number}: {counts:?}"
            );
        }
    }
}

fn compare_good() -> Comparison {
    let mut compared = Comparison::default();
    let mut random = Random::new(3);
    for (count, size) in [
        (3000, Size::SMALL),
        (2000, Size::MEDIUM),
        (100, Size::LARGE),
    ] {
        for _ in 0..count {
            compared.add(encode(&good(&mut random, &size)));
        }
    }
    compared
}

fn compare_damaged() -> Comparison {
    let mut compared = Comparison::default();
    let mut random = Random::new(4);
    for (count, size) in [
        (14_000, Size::SMALL),
        (4000, Size::MEDIUM),
        (100, Size::LARGE),
    ] {
        for _ in 0..count {
            compared.add(damaged(&mut random, &size));
        }
    }
    compared
}

fn compare_flipped_or_cut() -> Comparison {
    let mut compared = Comparison::default();
    let mut random = Random::new(5);
    for _ in 0..30 {
        let bytes = encode(&good(&mut random, &Size::SMALL));
        for position in 0..8 * bytes.len() {
            let mut flipped = bytes.clone();
            let bit = bytes[position / 8] >> (7 - position % 8) & 1 == 0;
            set_bit(&mut flipped, position, bit);
            compared.add(flipped);
        }
        for length in 0..bytes.len() {
            compared.add(bytes[..length].to_vec());
        }
    }
    compared
}

fn compare_random() -> Comparison {
    let mut compared = Comparison::default();
    let mut random = Random::new(6);
    for _ in 0..6000 {
        let length = random.between(0, 40);
        let mut bytes: Vec<u8> = (0..length).map(|_| random.bits() as u8).collect();
        if let Some(first) = bytes.first_mut() {
            if random.chance(7, 8) {
                *first = random.pick(&[0x10, 0x20]) + random.between(0, 9) as u8;
            }
        }
        if let Some(second) = bytes.get_mut(1) {
            if random.chance(3, 4) {
                *second %= 32;
            }
        }
        compared.add(bytes);
    }
    for length in [1023, 1024, 1025, 1026, 4096, 1 << 20] {
        compared.add(vec![0; length]);
        compared.add(vec![0x11; length]);
        compared.add(vec![0x21; length]);
        compared.add(vec![0xff; length]);
    }
    compared
}

fn compare_edges() -> Comparison {
    let mut compared = Comparison::default();
    for bytes in edges() {
        compared.add(bytes);
    }
    compared
}

#[test]
fn good_sheets() {
    let mut sheets: BTreeMap<u8, usize> = BTreeMap::new();
    for bytes in GOOD.answers.keys() {
        *sheets.entry(bytes[0]).or_insert(0) += 1;
    }
    // The halves of the first byte are the edition and the number of facts.
    let all = (0x11..=0x18).chain(0x21..=0x28);
    assert!(sheets.keys().copied().eq(all), "{sheets:x?}");
    assert!(sheets.values().all(|&count| count >= 40), "{sheets:x?}");
}

/// Accepted sheets with another constraint: true, or one that leaves or excludes a
/// single state.
#[test]
fn other_constraints() {
    let (mut freed, mut changed) = (Comparison::default(), Comparison::default());
    for bytes in GOOD.answers.keys() {
        let sheet = reference::read::read(bytes).unwrap();
        if !excluded(&sheet).is_empty() {
            let free = sheet.clone().constrained(Objective::True);
            freed.add(encode(&free));
        }
        for state in (0..1u16 << sheet.facts).filter(|_| sheet.facts <= 2) {
            let literal = |number: u8| match state >> number & 1 {
                1 => Objective::Fact(number),
                _ => Objective::Fact(number).negate(),
            };
            let only = (1..sheet.facts).fold(literal(0), |all, number| all.and(literal(number)));
            for constraint in [only.clone().negate(), only] {
                changed.add(encode(&sheet.clone().constrained(constraint)));
            }
        }
    }
    // Of the answers 0, 13, 14 and 15 there are at least so many.
    for (compared, least) in [
        (freed, [300, 0, 100, 100]),
        (changed, [5000, 500, 1000, 100]),
    ] {
        let counts = compared.counts();
        let met = [0, 13, 14, 15].map(|number| counts[number]);
        assert!(
            met.iter().zip(least).all(|(&met, least)| met >= least),
            "{counts:?}"
        );
    }
}

#[test]
fn damaged_sheets() {
    DAMAGED.assert_met(0..=16);
}

#[test]
fn flipped_bits_and_cut_sheets() {
    // Cuts give 2, flips in the first byte 3 and 4; some flips leave a good sheet.
    FLIPPED_OR_CUT.assert_met([0, 2, 3, 4]);
}

#[test]
fn random_bytes() {
    // Random bytes are mostly refused in the header or the actions.
    RANDOM.assert_met(1..=7);
}

#[test]
fn sheets_at_the_limits() {
    EDGES.assert_met(0..=16);
}

#[test]
fn at_least_20_000_different_sheets() {
    let families = [&GOOD, &DAMAGED, &FLIPPED_OR_CUT, &RANDOM, &EDGES];
    let sheets: BTreeSet<&[u8]> = families
        .iter()
        .flat_map(|family| family.answers.keys().map(Vec::as_slice))
        .collect();
    assert!(sheets.len() >= 20_000, "{} sheets", sheets.len());
}
