//! EB11 answered by the library and by the reference, in one run: all of it refused, with no change in it, with half of its
//! records halves of changes, and with all of them.

use super::measures::{checksum, in_turns, print_growth, GROWN};
use outside::gen::{any_no, changes_of, Rng};
use outside::{linked, six, write_eb12};
use std::hint::black_box;

/// How many records there are for each change, whose halves are two of them; or none at all.
const RECORDS_A_CHANGE: [Option<usize>; 3] = [None, Some(4), Some(2)];

pub fn print() {
    let mut rng = Rng::new(1);
    println!(
        "{:<16}{:>8}{:>10}{:>10}{:>10}{:>10}{:>14}{:>16}",
        "", "records", "changes", "library", "reference", "checksum", "lib/reference", "lib ns/record"
    );
    for of_change in RECORDS_A_CHANGE {
        let times = GROWN.map(|n| {
            let changes = of_change.map_or(0, |records| n / records);
            let eb11 = changes_of(&mut rng, n, changes).file();
            let answers: Vec<u64> = (0..n).map(|_| any_no(&mut rng)).collect();
            let times = answering(&eb11, &answers);
            let [library, reference, checksum] = times;
            println!(
                "{:<16}{n:>8}{changes:>10}{:>10.2}{:>10.2}{:>10.2}{:>14.2}{:>16.1}",
                "write EB12",
                library * 1e6,
                reference * 1e6,
                checksum * 1e6,
                library / reference,
                library * 1e9 / n as f64,
            );
            times
        });
        print_growth("records", GROWN, times);
    }
}

/// The seconds of one call by library and reference, and of a checksum of the EB11.
fn answering(eb11: &[u8], answers: &[u64]) -> [f64; 3] {
    let [mut one, mut other] = [(); 2].map(|()| vec![0; eb11.len()]);
    let told = linked::write_eb12(eb11, answers, &mut one);
    let (ours, length) = write_eb12(eb11, answers, &mut other);
    assert_eq!(told, six(&ours, length));
    assert!(told[1] == 0 && one == other && length == eb11.len() as u64);
    in_turns([
        &mut || linked::write_eb12(black_box(eb11), answers, &mut one)[1],
        &mut || write_eb12(black_box(eb11), answers, &mut other).0.number,
        &mut || checksum(black_box(eb11)),
    ])
}
