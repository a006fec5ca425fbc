//! A request with two results that list all of it, the second from behind, compared by the library and by the reference, in
//! one run; beside them the library's pairing of the request with each of the two.

use super::measures::{in_turns, print_growth, refused, request_of, GROWN};
use outside::gen::Rng;
use outside::layout::{Kind, MOST_RECORDS};
use outside::{linked, seven, two_results};
use std::hint::black_box;

const KINDS: [Kind; 2] = [Kind::EB21, Kind::EC21];

pub fn print() {
    println!(
        "{:<16}{:>8}{:>10}{:>10}{:>10}{:>14}{:>13}{:>16}",
        "", "records", "library", "reference", "two pairs", "lib/reference", "lib/pairs", "lib ns/record"
    );
    for kind in KINDS {
        let times = GROWN.map(|n| {
            let request = request_of(&mut Rng::new(1), kind, n);
            let first = refused(&request, 1, b"N0021");
            let mut second = refused(&request, 1, b"N9999");
            second.bodies.reverse();
            let times = comparing(kind, [request, first, second].map(|draft| draft.file()));
            let [library, reference, pairs] = times;
            println!(
                "{:<16}{n:>8}{:>10.2}{:>10.2}{:>10.2}{:>14.2}{:>13.2}{:>16.0}",
                format!("two {kind:?}"),
                library * 1e6,
                reference * 1e6,
                pairs * 1e6,
                library / reference,
                library / pairs,
                library * 1e9 / n as f64,
            );
            times
        });
        print_growth("records", GROWN, times);
    }
}

/// The seconds of one call by library and reference, and of two pairings by the library.
fn comparing(kind: Kind, [request, first, second]: [Vec<u8>; 3]) -> [f64; 3] {
    let kind = kind.number();
    let (told, compared) = two_results(kind, &request, &first, &second);
    assert_eq!(linked::two_results(kind, &request, &first, &second), seven(&told, &compared));
    assert!(told.is_accepted() && compared.request() == 0 && first != second);
    let [mut taken, mut not_taken] = [(); 2].map(|()| vec![0; MOST_RECORDS]);
    let mut pairing = |result: &[u8]| {
        linked::pair(kind, black_box(&request), black_box(result), &mut taken, &mut not_taken)[1]
    };
    in_turns([
        &mut || linked::two_results(kind, black_box(&request), &first, &second)[1],
        &mut || two_results(kind, black_box(&request), &first, &second).0.number,
        &mut || pairing(&first) + pairing(&second),
    ])
}
