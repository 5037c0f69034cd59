//! The checked-in answers are those of the oracle today.

use oracle::{answers, forms, records, sheets};
use std::collections::BTreeSet;
use std::path::Path;

/// The file below crates/ has these records, so many of them.
fn is_todays<const N: usize>(path: &str, today: Vec<[u64; N]>, count: usize) {
    let crates = Path::new(env!("CARGO_MANIFEST_DIR")).join("../../crates");
    let bytes = std::fs::read(crates.join(path)).expect("a file that harness/README.md makes");
    assert_eq!(today.len(), count);
    assert!(
        bytes == records::bytes(today),
        "{path} differs from the oracle"
    );
}

#[test]
fn the_numbers_file_is_todays() {
    is_todays(answers::FILE, answers::records(), 1050);
}

#[test]
fn the_sheet_file_is_todays() {
    is_todays(sheets::FILE, sheets::records(), 380);
}

#[test]
fn the_form_file_is_todays() {
    is_todays(forms::FILE, forms::records(), 472);
}

/// Each kind shows all its refusals; a distance and a mark that is beyond are
/// among those that have none.
#[test]
fn the_form_file_shows_every_refusal() {
    let list = forms::records();
    let shows = |kind: u64, number: u64| list.iter().any(|r| (r[0], r[3]) == (kind, number));
    let expected = [
        (1, vec![0, 5, 6, 18, 9, 12]),
        (2, vec![0, 5, 6, 7, 18, 9, 12]),
        (3, vec![0, 1, 6, 16, 17]),
        (4, vec![0]),
    ];
    for (kind, numbers) in expected {
        for number in numbers {
            assert!(shows(kind, number), "{kind} shows no {number}");
        }
    }
    let measured = |beyond: u64| list.iter().any(|r| (r[0], r[3], r[228]) == (3, 0, beyond));
    assert!(measured(0) && measured(1));
    let counted = |r: &&forms::Record| r[0] == 4 && r[227] != 0;
    assert!(list.iter().any(|r| counted(&r)) && list.iter().any(|r| r[0] == 4 && !counted(&r)));
}

/// Each kind shows all its refusals that an input of at most 20 numbers can.
#[test]
fn the_sheet_file_shows_every_refusal() {
    let mut shown = BTreeSet::new();
    for record in sheets::records() {
        shown.insert((record[0], record[4]));
    }
    let expected = [
        (1, vec![0, 5, 6, 18, 9, 12]),
        (2, vec![0, 5, 6, 18]),
        (3, vec![0, 5, 6, 7, 18, 9, 13, 14]),
        (4, vec![0, 1, 6, 16]),
    ];
    for (kind, numbers) in expected {
        for number in numbers {
            assert!(shown.contains(&(kind, number)), "{kind} shows no {number}");
        }
    }
}

/// Each ratio that matters, with what it answers where nothing else is wrong;
/// and 1 and 6 beside a ratio that is refused.
#[test]
fn the_sheet_file_shows_every_ratio() {
    let list = sheets::records();
    let shows = |answer: u64, ratio: f64| {
        let word = records::bits(ratio);
        list.iter().any(|record| {
            assert!(record[0] != 4 || record[2] == 14);
            (record[0], record[4], record[18]) == (4, answer, word)
        })
    };
    let accepted = [0.01, 0.5, 1.0, 2.0, 100.0];
    let refused = [0.01f64.next_down(), 100f64.next_up(), 0.0, -1.0];
    for ratio in accepted {
        assert!(shows(0, ratio), "{ratio:e}");
    }
    for ratio in [&refused[..], &[f64::NAN, f64::INFINITY]].concat() {
        assert!(shows(16, ratio), "{ratio:e}");
    }
    assert!(shows(1, 0.0) && shows(6, 0.0));
    assert!(!shows(0, 0.0) && !shows(16, 1.0));
}

/// Distances of every kind with s > 0, s = +inf too, and marks that are beyond
/// by every kind of s that isn't.
#[test]
fn the_sheet_file_shows_every_distance() {
    let mut shown = BTreeSet::new();
    let accepted = |record: &sheets::Record| record[0] == 4 && record[4] == 0;
    for record in sheets::records().into_iter().filter(accepted) {
        let [number, h6, h7, h8, x, y] =
            [116, 11, 12, 13, 14, 15].map(|k| f64::from_bits(record[k]));
        let s = (h6 * x + h7 * y) + h8;
        assert_eq!(record[117], u64::from(!(s > 0.0)));
        if record[117] == 1 {
            assert_eq!(record[116], 0);
            shown.insert(format!("beyond by {s}"));
        } else {
            shown.insert(format!("{:?}", number.classify()));
            shown.insert(format!("s = {s}"));
        }
    }
    for kind in ["Zero", "Normal", "Infinite", "Nan", "s = inf"] {
        assert!(shown.contains(kind), "no {kind}: {shown:?}");
    }
    for s in ["-1", "0", "-0", "-inf", "NaN"] {
        let kind = format!("beyond by {s}");
        assert!(shown.contains(&kind), "no {kind}: {shown:?}");
    }
}
