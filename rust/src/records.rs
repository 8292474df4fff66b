//! Records of the runner, good and damaged ones.

use crate::edges::plain;
use crate::encode::encode;
use crate::random::{good, Random, Size};
use crate::runner::{Record, Told};
use crate::sheet::{Action, Objective, Program, Sheet, MAX_ACTION_NODES, MAX_BYTES};

/// A name, whether each record so damaged is refused, and the damage. The record
/// has a byte past each length.
pub type Damage = (&'static str, bool, fn(&mut Random, &mut Record));

pub const DAMAGES: &[Damage] = &[
    ("a byte past the sheet", true, |random, record| {
        let place = random.between(record.length, MAX_BYTES - 1);
        record.sheet[place] = 1 << random.below(8);
    }),
    ("the first byte past the sheet", true, |random, record| {
        record.sheet[record.length] = random.between(1, 255) as u8;
    }),
    ("the last byte past the sheet", true, |_, record| {
        record.sheet[MAX_BYTES - 1] = 1;
    }),
    ("a byte past the replies", true, |random, record| {
        let place = random.between(record.count, MAX_ACTION_NODES - 1);
        record.replies[place] = 1 << random.below(8);
    }),
    ("the first byte past the replies", true, |random, record| {
        record.replies[record.count] = random.between(1, 255) as u8;
    }),
    ("the last byte past the replies", true, |_, record| {
        record.replies[MAX_ACTION_NODES - 1] = 1;
    }),
    ("a bit of the sheet", false, |random, record| {
        record.sheet[random.below(record.length)] ^= 1 << random.below(8);
    }),
    ("a byte of the sheet", false, |random, record| {
        record.sheet[random.below(record.length)] = random.bits() as u8;
    }),
    ("a length of one less", true, |_, record| record.length -= 1),
    ("a length of one more", true, |_, record| record.length += 1),
    ("any length", false, |random, record| {
        record.length = random.between(0, 2 * record.length);
    }),
    ("a length of 0", true, |_, record| record.length = 0),
    ("a length of 1,024", true, |_, record| {
        record.length = MAX_BYTES
    }),
    ("a length of 1,025", true, |_, record| {
        record.length = MAX_BYTES + 1
    }),
    ("a length of 70,000", true, |_, record| {
        record.length = 70_000
    }),
    ("a length of 65,536 more", true, |_, record| {
        record.length += 65_536
    }),
    ("the greatest length", true, |_, record| {
        record.length = usize::MAX
    }),
    ("one reply less", false, |_, record| {
        record.count = record.count.saturating_sub(1)
    }),
    ("one reply more", false, |_, record| record.count += 1),
    ("any count", false, |random, record| {
        record.count = random.between(0, MAX_ACTION_NODES)
    }),
    ("a count of 64", true, |_, record| {
        record.count = MAX_ACTION_NODES
    }),
    ("a count of 65", true, |_, record| {
        record.count = MAX_ACTION_NODES + 1
    }),
    ("a count of 70,000", true, |_, record| record.count = 70_000),
    ("a count of 256 more", true, |_, record| record.count += 256),
    ("the greatest count", true, |_, record| {
        record.count = usize::MAX
    }),
    ("another reply", false, |random, record| {
        record.replies[random.below(record.count.max(1))] = random.between(0, 3) as u8;
    }),
    ("any reply", false, |random, record| {
        record.replies[random.below(record.count.max(1))] = random.between(0, 15) as u8;
    }),
    ("a reply more", false, |random, record| {
        record.replies[record.count] = random.between(0, 8) as u8;
        record.count += 1;
    }),
    ("64 replies", true, |random, record| {
        let replies = &mut record.replies[record.count..];
        replies.fill_with(|| random.below(3) as u8);
        record.count = MAX_ACTION_NODES;
    }),
    ("the record of zeros", true, |_, record| {
        *record = Record::ZERO
    }),
    ("zeros with lengths", true, |random, record| {
        *record = Record::ZERO;
        record.length = random.between(0, 2);
        record.count = random.between(0, 2);
    }),
    ("any bytes", true, |random, record| {
        record.sheet.fill_with(|| random.bits() as u8);
        record.replies.fill_with(|| random.bits() as u8);
    }),
];

/// A record of a small sheet with some accepted replies, or all.
pub fn some_record(random: &mut Random) -> Record {
    let sheet = good(random, &Size::SMALL);
    let mut record = Record::load(&encode(&sheet)).0;
    let whole = random.chance(1, 2);
    while let Told::Action(_) = record.clone().next().1 {
        if !whole && random.chance(1, 4) {
            break;
        }
        record = record.report(random.below(3) as u8).0;
    }
    assert!((1..MAX_BYTES).contains(&record.length) && record.count < MAX_ACTION_NODES);
    record
}

/// A record of the longest sheet, and one with as many replies as there may be.
pub fn fullest() -> [Record; 2] {
    let sheet = Record::load(&encode(&Sheet {
        start: wide(1362),
        ..plain()
    }));
    let mut replies = Record::load(&encode(&Sheet {
        actions: vec![Action::Probe(vec![Objective::True])],
        program: (0..MAX_ACTION_NODES).fold(Program::End, |rest, _| Program::act(0, rest)),
        ..plain()
    }));
    for _ in 0..MAX_ACTION_NODES {
        replies = replies.0.report(0);
    }
    assert_eq!([sheet.1, replies.1], [Ok(()); 2]);
    assert_eq!(
        [sheet.0.length, replies.0.count],
        [MAX_BYTES, MAX_ACTION_NODES]
    );
    [sheet.0, replies.0]
}

/// So many times "true", in a tree of few levels.
pub fn wide(leaves: usize) -> Objective {
    match leaves {
        1 => Objective::True,
        _ => wide(leaves / 2).and(wide(leaves - leaves / 2)),
    }
}
