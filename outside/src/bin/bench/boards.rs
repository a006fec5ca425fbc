//! Pairs posted on boards of some sizes, by the library and by the reference, in one run. Posting changes the board, so each
//! posts on a fresh copy; the copy is counted for both, and stands beside them by itself.

use super::measures::{in_turns, print_growth, refused, request_of, GROWN};
use outside::board::FIRST_DATES;
use outside::gen::{Rng, LARGEST_AMOUNT};
use outside::layout::Kind;
use outside::{board_post, linked, Member};
use std::hint::black_box;

/// Requests, every fourth of which was answered, and members. Each request has a payer of its own, so there are no fewer.
const SIZES: [(usize, usize); 7] = [
    (GROWN[0], GROWN[0]),
    (GROWN[1], GROWN[1]),
    (GROWN[0], GROWN[1]),
    (GROWN[0], 4_000),
    (GROWN[1], 4_000),
    (GROWN[0], 10_000),
    (GROWN[1], 10_000),
];
const KIND: Kind = Kind::EB21;

pub fn print() {
    println!(
        "{:<16}{:>8}{:>10}{:>10}{:>10}{:>10}{:>14}{:>16}",
        "", "requests", "members", "library", "reference", "copy", "lib/reference", "lib ns/member"
    );
    let times = SIZES.map(|(requests, members)| {
        let mut rng = Rng::new(1);
        let request = request_of(&mut rng, KIND, requests);
        let files = [request.file(), refused(&request, 4, b"N0021").file()];
        posting(&files, &board_of(&mut rng, members))
    });
    for ((requests, members), [library, reference, copy]) in SIZES.iter().zip(times) {
        println!(
            "{:<16}{requests:>8}{members:>10}{:>10.2}{:>10.2}{:>10.2}{:>14.2}{:>16.1}",
            "board EB21",
            library * 1e6,
            reference * 1e6,
            copy * 1e6,
            library / reference,
            library * 1e9 / *members as f64,
        );
    }
    print_growth("requests on as many members", GROWN, [times[0], times[1]]);
    print_growth("requests on 10,000 members", GROWN, [times[5], times[6]]);
    print_growth("members for 430 requests", GROWN, [times[0], times[2]]);
    print_growth("members for 2,000 requests", [GROWN[1], 10_000], [times[1], times[6]]);
}

/// Members in any order, whose payers are numbered as those of the requests; all owe enough.
fn board_of(rng: &mut Rng, members: usize) -> Vec<Member> {
    let payer = |before: usize| format!("{:<20}", 2_024_000_001 + before).into_bytes();
    let member = |before: usize| Member {
        payer: payer(before).try_into().expect("20 bytes"),
        owed: LARGEST_AMOUNT,
        state: 0,
    };
    let mut board: Vec<Member> = (0..members).map(member).collect();
    rng.shuffle(&mut board);
    board
}

/// The seconds of a posting by library and reference, and of the copy alone.
fn posting([request, result]: &[Vec<u8>; 2], fresh: &[Member]) -> [f64; 3] {
    let kind = KIND.number();
    let [mut one, mut other, mut third] = [(); 3].map(|()| fresh.to_vec());
    let [mut dates, mut of_other] = [FIRST_DATES; 2];
    let told = linked::board_post(kind, request, result, &mut one, &mut dates);
    assert_eq!(told, board_post(kind, request, result, &mut other, &mut of_other).five());
    assert!(told[1] == 0 && one == other && dates == of_other && one != fresh);
    in_turns([
        &mut || {
            one.copy_from_slice(black_box(fresh));
            dates = FIRST_DATES;
            linked::board_post(kind, request, result, &mut one, &mut dates)[1]
        },
        &mut || {
            other.copy_from_slice(black_box(fresh));
            of_other = FIRST_DATES;
            board_post(kind, request, result, &mut other, &mut of_other).number
        },
        &mut || {
            third.copy_from_slice(black_box(fresh));
            black_box(&third)[0].owed
        },
    ])
}
