//! How the time of the search grows with the number of histories and with the
//! number of different places, an action node and a set each, that they lead to.

use std::hint::black_box;

use linked::straight::seldom_told;
use linked::{plain, Tables, Verdict};
use reference::encode::encode;
use reference::sheet::{Epistemic, Objective, Sheet, MAX_TRACE};

use crate::picture::{page, Line};
use crate::routines::{branching, Routine};
use crate::verifying::{Verify, BEFORE};
use crate::{least, Call};

/// More histories than these are not visited one by one.
const MOST_ONE_BY_ONE: u32 = 100_000_000;

/// Valid routines of the same kind, by a number.
struct Family {
    name: &'static str,
    members: Vec<(u8, Sheet)>,
}

fn families() -> Vec<Family> {
    let mut routine = Routine::new();
    // No change is used, and without them little time is taken off a call's.
    routine.actions.truncate(usize::from(Routine::STAY));
    let valid = |numbers: Vec<u8>| routine.valid(&numbers);
    let overlaps = |k| (0..k).map(|i| Routine::OVERLAP + i % 8).collect();
    let facts = || (0..8).map(|i| Routine::FACT + i);
    let nothing = |k| vec![Routine::NOTHING; usize::from(k)];
    let passes = || Epistemic::Known(Objective::True);
    vec![
        Family {
            name: "k probes that tell nothing",
            members: (2..=30)
                .step_by(2)
                .map(|k| (k, valid(nothing(k))))
                .collect(),
        },
        Family {
            name: "8 facts probed, then k such probes",
            members: (0..=20)
                .step_by(2)
                .map(|k| (k, valid(facts().chain(nothing(k)).collect())))
                .collect(),
        },
        Family {
            name: "k probes and branches of 4 atoms",
            members: (1..=10)
                .map(|k| (k, routine.sheet(passes(), branching(k))))
                .collect(),
        },
        Family {
            name: "k overlapping probes of 3 replies",
            members: (2..=16).map(|k| (k, valid(overlaps(k)))).collect(),
        },
        Family {
            name: "k probes that seldom tell, 1 fact",
            members: (2..=18)
                .step_by(2)
                .map(|k| (k, seldom_told(k.into())))
                .collect(),
        },
    ]
}

/// Prints a table of all families, and writes a picture to the path if there is one.
pub fn rows(path: Option<String>) {
    println!("| Family | k | histories | places | places searched | histories visited | proved, µs | before, µs | Rust, tables, µs |");
    println!("|---|---|---|---|---|---|---|---|---|");
    let mut by_histories = Vec::new();
    let mut by_places = Vec::new();
    for family in families() {
        let [mut histories, mut places] = [(); 2].map(|()| Line {
            name: family.name,
            solid: Vec::new(),
            dashed: Vec::new(),
        });
        for (k, sheet) in family.members {
            let grown = measure(&sheet);
            let micros = |time: Option<f64>| {
                time.map_or("-".to_string(), |time| format!("{:.1}", time / 1e3))
            };
            println!(
                "| {} | {k} | {} | {} | {} | {} | {} | {} | {} |",
                family.name,
                grown.histories,
                grown.places,
                grown.searched,
                grown.visited,
                micros(Some(grown.proved)),
                micros(grown.before),
                micros(grown.tables)
            );
            // A time that was lost in the measuring has no place on the picture.
            let point = |number: f64, time: f64| (time > 0.0).then_some((number, time));
            let count = f64::from(grown.histories);
            histories.solid.extend(point(count, grown.proved));
            places
                .solid
                .extend(point(grown.places as f64, grown.proved));
            // The search without a memory, in Rust.
            let without = grown.tables;
            histories
                .dashed
                .extend(without.and_then(|time| point(count, time)));
        }
        by_histories.push(histories);
        by_places.push(places);
    }
    if let Some(path) = path {
        let charts = [
            ("number of histories", by_histories),
            ("number of different places", by_places),
        ];
        let up = "time of the search (of a call, less that of reading and tables)";
        std::fs::write(&path, page(up, &charts)).unwrap();
    }
}

struct Grown {
    histories: u32,
    /// Different places that they lead to, and those searched: not recalled.
    places: usize,
    searched: u64,
    /// Histories visited one by one.
    visited: u64,
    /// Times of the search, in nanoseconds: of a call less that of `prepare`, which
    /// leaves the clearing of the memories in it.
    proved: f64,
    before: Option<f64>,
    /// Of the search alone.
    tables: Option<f64>,
}

fn measure(sheet: &Sheet) -> Grown {
    let bytes = &encode(sheet);
    let budget = u32::MAX;
    let verdict = linked::verify(bytes, budget, &mut [0; MAX_TRACE]).unwrap();
    let Verdict::Valid { count } = verdict else {
        panic!("{verdict:?}")
    };
    let (mut tables, mut start) = (Tables::zeroed(), [0; 4]);
    assert_eq!(linked::prepare(bytes, &mut tables, &mut start), 0);
    let places = plain::places(&tables, &start, budget);
    let (found, counts) = plain::verify_counting(&tables, &start, budget, &mut [0; MAX_TRACE]);
    assert_eq!(found, verdict);

    let call = |verify: Verify| -> Call {
        Box::new(move || {
            let found = verify(black_box(bytes), budget, &mut [0; MAX_TRACE]);
            assert_eq!(found, Ok(verdict));
        })
    };
    let over_tables: Call = Box::new(|| {
        let found = plain::verify(black_box(&tables), &start, budget, &mut [0; MAX_TRACE]);
        assert_eq!(found, verdict);
    });
    let mut prepared = Tables::zeroed();
    let prepare: Call = Box::new(|| {
        linked::prepare(black_box(bytes), &mut prepared, &mut [0; 4]);
    });
    let [proved, before, tables, prepare] = least([
        Some(call(linked::verify)),
        BEFORE.map(call),
        Some(over_tables).filter(|_| count <= MOST_ONE_BY_ONE),
        Some(prepare),
    ]);
    let search = |time: f64| time - prepare.unwrap();
    Grown {
        histories: count,
        places,
        searched: counts.looked - counts.hits,
        visited: counts.visited,
        proved: search(proved.unwrap()),
        before: before.map(search),
        tables,
    }
}
