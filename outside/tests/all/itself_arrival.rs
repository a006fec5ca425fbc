//! The reference against the rules of files that arrive in parts: the places where two careful readers of them could differ
//! (q6a to q6i), faults that must be noticed however the file is cut, and its two ways, by the joined bytes and by the state
//! alone, beside each other over generated arrivals.
//!
//! `OUTSIDE_SEED` and `OUTSIDE_COUNT` choose the generated arrivals.

use super::itself::{accepted, answer, debit, enrolment, file, length, number, put, sample};
use outside::gen::{self, Rng};
use outside::{end_at, part_at, read, settings, Answer, Arrival};

const KINDS: [&str; 6] = ["EB13", "EB14", "EB21", "EB22", "EC21", "EC22"];
const ENDED: u64 = u64::MAX;
const LONGEST: usize = 300_300;

/// A number that has no place.
fn alone(number: u64) -> Answer {
    answer(0, number, 0, 0, "0000")
}

/// A file of so many data records, good but for what 2,001 are told.
fn many(kind: &str, n: usize) -> Vec<u8> {
    let result = if matches!(kind, "EB14" | "EB22" | "EC22") { "N0021" } else { "" };
    let body = |k: usize| match length(kind) {
        120 => enrolment("1", &format!("P{k}"), result),
        _ => debit(10_000, "0", &format!("P{k}"), result),
    };
    file(kind, &(1..=n).map(body).collect::<Vec<_>>())
}

/// An arrival of these parts in a room of this length, before its end.
fn arriving(parts: &[&[u8]], room: usize) -> Arrival {
    let mut arrival = Arrival::new(&vec![0xEE; room]);
    for part in parts {
        assert_eq!(arrival.part(part), 10);
    }
    arrival
}

/// The answer to its end.
fn told(kind: &str, parts: &[&[u8]], room: usize) -> Answer {
    arriving(parts, room).end(number(kind))
}

// ----------------------------------------------------------------- q6a to q6i

/// Two numbers of a state, the five of an end, and what a part returns.
#[test]
fn q6a_the_shape_of_an_answer() {
    let whole = file("EB21", &[]);
    let mut arrival = Arrival::new(&[0xEE; 302]);
    assert_eq!(arrival.state(), [0, 0]);
    assert_eq!(arrival.part(&whole[..100]), 10);
    assert_eq!(arrival.state(), [100, 0]);
    assert_eq!(arrival.room(), [&whole[..100], &[0xEE; 202]].concat());
    assert_eq!(arrival.part(&whole[100..]), 10);
    assert_eq!(arrival.state(), [300, 0]);
    assert_eq!(arrival.end(number("EB21")).five(), [0, 0, 0, 0, 0x3030_3030]);
    assert_eq!(arrival.state(), [300, ENDED]);
    assert_eq!(arrival.room(), [&whole[..], &[0xEE; 2]].concat());
    assert_eq!(arrival.end(number("EB21")).five(), [0, 9, 0, 0, 0x3030_3030]);
}

/// However it was cut, it is told what the joined bytes are told.
#[test]
fn q6b_every_cutting() {
    for kind in KINDS {
        let good = sample(kind);
        for first in 0..=good.len() {
            let (one, other) = good.split_at(first);
            assert_eq!(told(kind, &[one, other], good.len()), accepted());
            assert_eq!(told(kind, &[b"", one, b"", b"", other, b""], good.len()), accepted());
            assert_eq!(told(kind, &[one], good.len()), read(number(kind), one));
            assert_eq!(
                told(kind, &[other, one], good.len()) == accepted(),
                one.is_empty() || other.is_empty()
            );
        }
        let ones: Vec<&[u8]> = good.chunks(1).collect();
        assert_eq!(told(kind, &ones, LONGEST), accepted());
        assert_eq!(told(kind, &ones[..good.len() - 1], LONGEST), alone(2));
    }
}

/// A part says the same of every file: what is wrong shows at the end only.
#[test]
fn q6c_nothing_is_announced_before_the_end() {
    for part in [&b""[..], b"X", &[0; 150], &[b' '; 64_950], &vec![b' '; 300_450], &vec![b' '; 900_000]] {
        for room in [0, 1, LONGEST, 400_000] {
            let mut arrival = arriving(&[part, part, b"T"], room);
            assert_eq!(arrival.part(part), 10);
        }
    }
    assert_eq!(told("EB12", &[&sample("EB21")], LONGEST), alone(1));
    assert_eq!(told("EB12", &[], 0), alone(1));
}

#[test]
fn q6d_no_bytes() {
    for kind in KINDS {
        for room in [0, 1, LONGEST] {
            assert_eq!(told(kind, &[], room), alone(2));
            assert_eq!(told(kind, &[b""], room), alone(2));
            assert_eq!(told(kind, &[b"", b"", b""], room), alone(2));
        }
    }
}

/// 9 for a part and for an end, each time, whatever the first end said; nothing changes.
#[test]
fn q6e_after_the_end() {
    let good = sample("EB21");
    for (kind, parts, room, first) in [
        ("EB21", good.len(), LONGEST, accepted()),
        ("EB22", good.len(), LONGEST, answer(0, 5, 0, 4, "0000")),
        ("EB12", good.len(), LONGEST, alone(1)),
        ("EB21", good.len() - 1, LONGEST, alone(2)),
        ("EB21", good.len(), good.len() - 1, alone(8)),
        ("EB21", 0, 0, alone(2)),
    ] {
        let mut arrival = arriving(&[&good[..parts]], room);
        assert_eq!(arrival.end(number(kind)), first);
        let (state, left) = (arrival.state(), arrival.room());
        assert_eq!(state, [parts.min(room) as u64, ENDED]);
        for _ in 0..3 {
            for part in [&b""[..], &good[parts..], &good] {
                assert_eq!(arrival.part(part), 9);
            }
            for kind in ["EB21", "EB13", "EB12"] {
                assert_eq!(arrival.end(number(kind)), alone(9));
            }
            assert_eq!((arrival.state(), arrival.room()), (state, left.clone()));
        }
    }
}

/// 8 after 1, 2 and 3 and before the records; never where the room is as long as the longest file.
#[test]
fn q6f_a_short_room() {
    for kind in KINDS {
        let good = sample(kind);
        let broken = put(kind, &good, 0, 0, b"X");
        let [most, more] = [2_000, 2_001].map(|n| many(kind, n));
        for room in [0, 1, good.len() - 1] {
            assert_eq!(told(kind, &[&good], room), alone(8));
            assert_eq!(told(kind, &[&broken], room), alone(8));
            assert_eq!(told("EB12", &[&good], room), alone(1));
            assert_eq!(told(kind, &[&good, b" "], room), alone(2));
            assert_eq!(told(kind, &[&many(kind, 431)], room), alone(8));
            assert_eq!(told(kind, &[&most], room), alone(8));
            assert_eq!(told(kind, &[&more], room), alone(3));
            let arrival = arriving(&[&good], room);
            assert_eq!(arrival.state(), [room as u64, (good.len() - room) as u64]);
            assert_eq!(arrival.room(), good[..room]);
        }
        assert_eq!(told(kind, &[&good], good.len()), accepted());
        assert_eq!(told(kind, &[&broken], good.len()), answer(0, 4, 0, 1, "0081"));
        assert_eq!(told(kind, &[&many(kind, 431)], LONGEST), accepted());
        assert_eq!(told(kind, &[&most], LONGEST), accepted());
        assert_eq!(told(kind, &[&most], most.len() - 1), alone(8));
        // The room holds a good file, and more came.
        let whole = file(kind, &[]);
        assert_eq!(told(kind, &[&whole, &whole[..length(kind)]], whole.len()), alone(8));
    }
}

/// A file that is too long is told 2 or 3, by whether it is whole records, whatever its length and the room.
#[test]
fn q6g_over_the_limit() {
    for (kind, whole, parted) in [
        (
            "EB13",
            &[240_360, 300_000, 300_360, 300_600, 301_200, 480_000, 1_200_000][..],
            &[240_241, 300_299, 300_450][..],
        ),
        (
            "EB21",
            &[300_450, 300_600, 300_750, 301_200, 450_000, 1_500_000][..],
            &[300_301, 300_360, 300_599][..],
        ),
    ] {
        for room in [0, 300, LONGEST, 400_000] {
            for &bytes in whole {
                assert_eq!(told(kind, &[&vec![b' '; bytes]], room), alone(3), "{bytes} in {room}");
                assert_eq!(told(kind, &[&vec![b' '; bytes], b" "], room), alone(2));
            }
            for &bytes in parted {
                assert_eq!(told(kind, &[&vec![b' '; bytes]], room), alone(2), "{bytes} in {room}");
            }
        }
        assert_eq!(told(kind, &[&many(kind, 2_001)], LONGEST), alone(3));
    }
}

/// What the second number of a state is: so many bytes came past the room, from 300,600 on only what is left over of 600.
#[test]
fn q6h_what_came_past_the_room() {
    for (bytes, past) in [
        (0, 0),
        (1, 1),
        (65_400, 65_400),
        (66_000, 66_000),
        (300_599, 300_599),
        (300_600, 300_600),
        (301_199, 301_199),
        (301_200, 300_600),
        (301_201, 300_601),
        (601_800, 300_600),
        (1_000_000, 301_000),
    ] {
        assert_eq!(arriving(&[&vec![b' '; bytes]], 0).state(), [0, past]);
        assert_eq!(arriving(&[&vec![b' '; bytes + 1_000]], 1_000).state(), [1_000, past]);
        let halves = vec![b' '; bytes / 2];
        assert_eq!(arriving(&[&halves, &halves, &b" "[..bytes % 2]], 0).state(), [0, past]);
    }
}

/// A state that no arrival gives: sums are true ones, and nothing lies past the room.
#[test]
fn q6i_any_state() {
    let eb21 = number("EB21");
    // 2^64 is 16 more than a multiple of 600.
    for (state, bytes, after) in [
        ([0, 301_199], 1, [0, 300_600]),
        ([0, 301_200], 0, [0, 300_600]),
        ([0, u64::MAX - 1], 0, [0, 300_614]),
        ([0, u64::MAX - 1], 1, [0, 300_615]),
        ([0, u64::MAX - 1], 136, [0, 300_750]),
        ([u64::MAX, 0], 5, [u64::MAX, 5]),
        ([u64::MAX, 300_595], 5, [u64::MAX, 300_600]),
        ([7, ENDED], 5, [7, ENDED]),
    ] {
        let returned = if state[1] == ENDED { 9 } else { 10 };
        assert_eq!(part_at(state, &mut [], &vec![b' '; bytes]), (returned, after));
    }
    let mut room = [0xEE; 6];
    assert_eq!(part_at([2, 9], &mut room, b"abcdef"), (10, [6, 11]));
    assert_eq!(room, *b"\xEE\xEEabcd");
    assert_eq!(part_at([7, 0], &mut room, b"abc"), (10, [7, 3]));
    assert_eq!(part_at([3, ENDED], &mut room, b"xyz"), (9, [3, ENDED]));
    assert_eq!(room, *b"\xEE\xEEabcd");
    let good = sample("EB21");
    for (state, told) in [
        ([750, 0], accepted()),
        ([751, 0], alone(2)),
        ([900, 0], alone(8)),
        ([750, 150], alone(8)),
        ([0, 750], alone(8)),
        ([750, 1], alone(2)),
        ([750, 64_200], alone(8)),
        ([750, 299_550], alone(8)),
        ([750, 299_700], alone(3)),
        ([u64::MAX, 135], alone(3)),
        ([u64::MAX, 0], alone(2)),
        ([u64::MAX - 615, 0], alone(3)),
        ([750, ENDED], alone(9)),
    ] {
        assert_eq!(good.len(), 750);
        assert_eq!(end_at(eb21, state, &good), (told, [state[0], ENDED]), "{state:?}");
    }
}

// --------------------------------------------------- faults must be noticed

/// A part that is lost, comes twice or is changed is noticed, wherever the file is cut in three; one that comes too late is
/// read where it came.
#[test]
fn a_fault_on_the_way_is_noticed() {
    for kind in KINDS {
        let good = sample(kind);
        for first in (1..good.len() - 1).step_by(7) {
            for second in (first + 1..good.len()).step_by(13) {
                let [a, b, c] = [&good[..first], &good[first..second], &good[second..]];
                let room = 2 * good.len();
                assert_eq!(told(kind, &[a, b, c], room), accepted());
                let mut changed = b.to_vec();
                changed[0] = 0x01;
                for parts in [&[a, c][..], &[a, b], &[b, c], &[a, b, b, c], &[a, &changed, c]] {
                    assert_ne!(told(kind, parts, room), accepted());
                }
                // Free text may be exchanged and stay free text.
                let swapped = [a, c, b].concat();
                assert_eq!(told(kind, &[a, c, b], room), read(number(kind), &swapped));
            }
        }
    }
}

/// Every byte that the reader minds, it minds in parts.
#[test]
fn every_byte_of_a_small_file() {
    for kind in KINDS {
        let good = sample(kind);
        for place in 0..good.len() {
            for byte in [0, b' ', b'0', b'X', 0xFF] {
                let mut file = good.clone();
                file[place] = byte;
                let (one, other) = file.split_at(place);
                assert_eq!(told(kind, &[one, other], file.len()), read(number(kind), &file));
            }
        }
    }
}

// ------------------------------------------------------ both ways, generated

/// By the joined bytes and by the state alone: the same returned numbers, states, rooms and answers.
#[test]
fn both_ways_are_one() {
    let (seed, count) = (settings::seed(), settings::count(20_000));
    let mut rng = Rng::new(seed);
    let mut numbers = [0; 10];
    for _ in 0..count {
        let (kind, file) = gen::any_file(&mut rng);
        let room = gen::any_arrival_room(&mut rng, file.len());
        let lengths = gen::any_cutting(&mut rng, file.len());
        assert_eq!(lengths.iter().sum::<usize>(), file.len());
        let (mut joined, mut state, mut other) = (Arrival::new(&room), [0, 0], room);
        let mut rest = &file[..];
        for length in lengths {
            let (part, behind) = rest.split_at(length);
            let (returned, after) = part_at(state, &mut other, part);
            assert_eq!((joined.part(part), joined.state()), (returned, after));
            assert!(joined.room() == other);
            (state, rest) = (after, behind);
        }
        let said = joined.end(kind);
        let (told, after) = end_at(kind, state, &other);
        assert_eq!((said, joined.state()), (told, after));
        assert!(joined.room() == other);
        numbers[told.number as usize] += 1;
        if told.number != 8 {
            assert_eq!(told, read(kind, &file));
        }
    }
    if count >= 20_000 {
        assert!(numbers[..=8].iter().all(|&times| times > 0), "{numbers:?}");
    }
}

/// The joined length decides 2 and 3 the same way as a folded one, for every length up to some folds.
#[test]
fn folding_changes_no_answer() {
    for kind in ["EB13", "EB21"] {
        for room in [0, 1, 599, 600, 30_000, LONGEST] {
            let about = [240_000..241_000, 299_700..302_000, 601_000..602_500];
            let lengths = (0..1_300).chain(about.into_iter().flatten());
            for bytes in lengths.filter(|&bytes| bytes > room) {
                let (_, state) = part_at([0, 0], &mut vec![0; room], &vec![0; bytes]);
                let size = length(kind);
                let expected = match (bytes % size, bytes / size) {
                    (0, 2..=2_002) => 8,
                    (0, 2_003..) => 3,
                    _ => 2,
                };
                let told = end_at(number(kind), state, &vec![0; room]).0;
                assert_eq!(told, alone(expected), "{bytes} bytes in {room}");
            }
        }
    }
}
