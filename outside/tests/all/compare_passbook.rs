//! The reference against the proved library: passbook texts, item 9 of debits, of every form and near one, in all that is
//! done with a file. What must be told is also held to the shapes of the texts.

use super::common::{good_file, keep, put};
use super::passbook::{
    every_byte, fronts_and_fills, told, with, with_front, Text, GOOD, IN_BODY, IN_RECORD,
};
use outside::bridge::{ask, Breach, Call, Queue, Said};
use outside::gen::{self, DayDraft, DayWriteInput, Draft, NamedBody, Rng};
use outside::layout::{Kind, PairKind};
use outside::proved::{DayParts, Parts};
use outside::{
    apart, day_body, day_read, day_write, eight, eight_of_day, outcome, pair, post, read, settings, six,
    ten_of_body, ten_of_outcome, walk, write, Answer, Arrival, DayAnswer, DayBody, Step,
};

// ------------------------------------------------------------------ one call

/// A call, what it is in words, its files one behind the other, and what the reference says of it.
struct Input {
    words: String,
    files: Vec<u8>,
    call: Call,
    expected: Said,
}

type Both = Queue<Input>;

fn both() -> Both {
    Queue::new(report)
}

fn compare(both: &mut Both, words: String, files: &[&[u8]], call: Call, expected: Said) {
    let input = Input { words, files: files.concat(), call: call.clone(), expected: expected.clone() };
    both.push(input, call, expected);
}

/// Fails with what both returned and the last numbers that they wrote, among them those of the answer.
fn report(Input { words, files, call, expected }: &Input) -> ! {
    let shown = |said: &Result<Said, Breach>| match said {
        Ok(Said { returned, written }) => {
            let last = &written[written.len().saturating_sub(80)..];
            format!("{returned} returned; at the end {:?}", Said::new(0).bytes(last).as_numbers())
        }
        Err(breach) => breach.to_string(),
    };
    let [reference, proved] = [Ok(expected.clone()), ask(call)].map(|said| shown(&said));
    panic!(
        "the two differ on {words}\nreference: {reference}\nproved:    {proved}\nthe files: {}",
        keep("differs-passbook", files).display()
    );
}

/// What both say of reading a file.
fn reading(both: &mut Both, kind: Kind, file: &[u8]) -> Answer {
    let told = read(kind.number(), file);
    let expected = Said::new(told.number).numbers(&told.five());
    compare(both, format!("reading {kind:?}"), &[file], Call::read(kind.number(), file), expected);
    told
}

/// What both say of writing a draft; a file that is written has the draft's bytes.
fn writing(both: &mut Both, draft: &Draft) -> Answer {
    let (kind, bodies) = (draft.kind.number(), draft.bodies.concat());
    let Draft { date, code, item6, item7, .. } = draft;
    let before = vec![0xc3; draft.file().len()];
    let mut room = before.clone();
    let told = write(kind, date, code, item6, item7, &bodies, &mut room);
    assert_eq!(room, if told.is_accepted() { draft.file() } else { before.clone() });
    let call = Call::write(kind, &Parts { date, code, item6, item7, bodies: &bodies }, &before);
    let expected = Said::new(told.number).bytes(&room).numbers(&told.five());
    compare(both, format!("writing {:?}", draft.kind), &[&bodies], call, expected);
    told
}

/// What both say of a pair of one request, with lists and asked for its outcome.
fn pairing(both: &mut Both, kinds: PairKind, request: &[u8], result: &[u8]) -> Answer {
    let (number, files) = (kinds.number(), [request, result]);
    let (mut taken, mut not_taken) = ([7], [8]);
    let told = pair(number, request, result, &mut taken, &mut not_taken);
    let expected = Said::new(told.number).numbers(&taken).numbers(&not_taken).numbers(&told.five());
    let call = Call::pair(number, request, result, &[7], &[8]);
    compare(both, format!("a pair of {kinds:?}"), &files, call, expected);
    let (also, found) = outcome(number, request, result, 1);
    assert_eq!(also, told);
    let expected = Said::new(told.number).numbers(&ten_of_outcome(&told, &found));
    let call = Call::outcome(number, request, result, 1);
    compare(both, format!("an outcome of {kinds:?}"), &files, call, expected);
    told
}

// ------------------------------------------------------------------ every one

const DEBITS: [Kind; 4] = [Kind::EB21, Kind::EB22, Kind::EC21, Kind::EC22];
const REQUESTS: [Kind; 2] = [Kind::EB21, Kind::EC21];
const PAIRS: [PairKind; 2] = [PairKind::NextDay, PairKind::SameDay];

fn texts() -> impl Iterator<Item = Text> {
    every_byte().chain(fronts_and_fills())
}

/// Every byte at every place of a text of each form, every k before every number of two-byte characters, and other fronts.
#[test]
fn every_text_is_read() {
    let (mut both, mut rng) = (both(), Rng::new(settings::seed()));
    for kind in DEBITS {
        let mut file = good_file(&mut rng, kind, 1);
        for text in texts() {
            put(&mut file, 150 + IN_RECORD, &text);
            let expected = told(kind, 1, &text);
            assert_eq!(reading(&mut both, kind, &file), expected, "{kind:?} {}", text.escape_ascii());
        }
    }
}

/// All first two bytes before every number of two-byte characters.
#[test]
fn every_front_is_read() {
    let (mut both, mut rng) = (both(), Rng::new(settings::seed()));
    for kind in REQUESTS {
        let mut file = good_file(&mut rng, kind, 1);
        let mut good = 0;
        for text in (0..=u16::MAX).flat_map(|front| with_front(front.to_be_bytes())) {
            put(&mut file, 150 + IN_RECORD, &text);
            let expected = told(kind, 1, &text);
            assert_eq!(reading(&mut both, kind, &file), expected, "{kind:?} {}", text.escape_ascii());
            good += u64::from(expected.is_accepted());
        }
        // Eight two-byte characters, "00", and each k once.
        assert_eq!(good, 94 * 94 + 1 + 4);
    }
}

/// The same written, in the last of three bodies.
#[test]
fn every_text_is_written() {
    let (mut both, mut rng) = (both(), Rng::new(settings::seed()));
    for kind in REQUESTS {
        let mut draft = gen::request_of(&mut rng, kind, 3);
        for text in texts() {
            put(&mut draft.bodies[2], IN_BODY, &text);
            let expected = told(kind, 3, &text);
            assert_eq!(writing(&mut both, &draft), expected, "{kind:?} {}", text.escape_ascii());
        }
    }
}

/// A request of one record and the "N" for it, each with this text.
fn asked_and_answered(request: &Draft, asked: &Text, answered: &Text) -> [Vec<u8>; 2] {
    let kinds = request.kind.pair().expect("a pair");
    let mut result = Draft { kind: kinds.result(), ..request.clone() };
    put(&mut result.bodies[0], gen::body_item(kinds.result(), 8).start, b"N0021");
    let mut request = request.clone();
    put(&mut request.bodies[0], IN_BODY, asked);
    put(&mut result.bodies[0], IN_BODY, answered);
    [request.file(), result.file()]
}

/// What is told of a pair that is good but for the two texts.
fn met(kinds: PairKind, asked: &Text, answered: &Text) -> Answer {
    let [request, result] =
        [(kinds.request(), asked), (kinds.result(), answered)].map(|(kind, text)| told(kind, 1, text));
    if !request.is_accepted() {
        request.on_side(1)
    } else if !result.is_accepted() {
        result.on_side(2)
    } else if asked != answered {
        Answer::placed(13, 1, 9)
    } else {
        Answer::accepted()
    }
}

/// A text of each form beside its copy, beside one that differs in a byte, and the other way round.
#[test]
fn every_difference_in_a_pair() {
    let (mut both, mut rng) = (both(), Rng::new(settings::seed()));
    for kinds in PAIRS {
        let request = gen::request_of(&mut rng, kinds.request(), 1);
        let mut meet = |asked: &Text, answered: &Text| {
            let [request, result] = asked_and_answered(&request, asked, answered);
            let told = pairing(&mut both, kinds, &request, &result);
            let texts = [asked, answered].map(|text| text.escape_ascii());
            assert_eq!(told, met(kinds, asked, answered), "{kinds:?}, {} beside {}", texts[0], texts[1]);
            told
        };
        for good in GOOD {
            assert_eq!(meet(good, good), Answer::accepted());
            for (place, byte) in (0..16).flat_map(|place| (0..=255).map(move |byte| (place, byte))) {
                let other = with(good, place, byte);
                if other == *good {
                    continue;
                }
                let differs = if byte < 0x20 {
                    Answer::broken(1, 9, b"0068").on_side(2)
                } else {
                    Answer::placed(13, 1, 9)
                };
                assert_eq!(meet(good, &other), differs);
                meet(&other, good);
                meet(&other, &other);
            }
        }
        for text in fronts_and_fills() {
            meet(&text, &text);
            meet(GOOD[2], &text);
        }
    }
}

/// The posting program, which asks for next-day debits.
#[test]
fn every_text_is_posted() {
    let (mut both, mut rng) = (both(), Rng::new(settings::seed()));
    let request = gen::request_of(&mut rng, Kind::EB21, 1);
    for text in fronts_and_fills().iter().chain(GOOD) {
        for answered in [text, GOOD[3]] {
            let [request, result] = asked_and_answered(&request, text, answered);
            let told = met(PairKind::NextDay, text, answered);
            let posted = post(&request, &result);
            let code = told.code.escape_ascii();
            let line =
                format!("refused {} {} {} {} {code}\n", told.side, told.number, told.record, told.item);
            let first = if told.is_accepted() { "accepted 1 " } else { &line };
            assert!(
                posted.starts_with(first.as_bytes()),
                "{}: {}",
                text.escape_ascii(),
                posted.escape_ascii()
            );
            let room = vec![0xc3; posted.len() + 3];
            let text = [&posted[..], &room[..3]].concat();
            let call = Call::post(&request, &result, &room);
            let expected = Said::new(posted.len() as u64).bytes(&text);
            let words = format!("posting, which is {}", posted.escape_ascii());
            compare(&mut both, words, &[&request, &result], call, expected);
        }
    }
}

/// A file of three records with this text in the second: walked, taken apart, arriving cut in the text, alone in a day file.
#[test]
fn every_text_in_all_that_takes_a_file() {
    let (mut both, mut rng) = (both(), Rng::new(settings::seed()));
    for kind in DEBITS {
        let good = good_file(&mut rng, kind, 3);
        for text in fronts_and_fills().iter().chain(GOOD) {
            let (mut file, expected) = (good.clone(), told(kind, 2, text));
            put(&mut file, 300 + IN_RECORD, text);
            walking(&mut both, kind, &file, expected);
            taking_apart(&mut both, kind, &file, expected);
            arriving(&mut both, kind, &file, expected);
            in_a_day(&mut both, &file, expected);
        }
    }
}

fn walking(both: &mut Both, kind: Kind, file: &[u8], expected: Answer) {
    for place in [0, 1, 3] {
        let (told, step) = walk(kind.number(), file, place);
        assert_eq!(told, expected);
        assert_eq!(step == Step::None, !told.is_accepted());
        let said = Said::new(told.number).numbers(&eight(&told, &step));
        compare(both, format!("walking {kind:?}"), &[file], Call::walk(kind.number(), file, place), said);
    }
}

/// Results are taken apart by nobody.
fn taking_apart(both: &mut Both, kind: Kind, file: &[u8], expected: Answer) {
    let before = vec![0xc3; 3 * 131];
    let mut bodies = before.clone();
    let (told, length) = apart(kind.number(), file, &mut bodies);
    assert_eq!(told, if kind.is_request() { expected } else { Answer::without_place(1) });
    let said = Said::new(told.number).bytes(&bodies).numbers(&six(&told, length));
    let call = Call::apart(kind.number(), file, &before);
    compare(both, format!("taking {kind:?} apart"), &[file], call, said);
}

/// In two parts, of which the first ends in the text; nothing is told before the end.
fn arriving(both: &mut Both, kind: Kind, file: &[u8], expected: Answer) {
    let room = vec![0xc3; file.len() + 3];
    let mut arrival = Arrival::new(&room);
    for part in [&file[..300 + IN_RECORD + 5], &file[300 + IN_RECORD + 5..]] {
        let (state, before) = (arrival.state(), arrival.room());
        assert_eq!(arrival.part(part), 10);
        let said = Said::new(10).numbers(&arrival.state()).bytes(&arrival.room());
        compare(both, format!("a part of {kind:?}"), &[file], Call::part(&state, &before, part), said);
    }
    let (state, before) = (arrival.state(), arrival.room());
    let told = arrival.end(kind.number());
    assert_eq!(told, expected);
    let said =
        Said::new(told.number).numbers(&arrival.state()).bytes(&arrival.room()).numbers(&told.five());
    compare(both, format!("the end of {kind:?}"), &[file], Call::end(kind.number(), &state, &before), said);
}

/// Read, asked for its body and written.
fn in_a_day(both: &mut Both, file: &[u8], expected: Answer) {
    let day = DayDraft { bodies: vec![NamedBody { name: file[19..27].to_vec(), file: file.to_vec() }] };
    let whole = day.file();
    let refused = DayAnswer::refused(1, expected);
    let expected = if expected.is_accepted() { DayAnswer::accepted() } else { refused };

    let (told, n) = day_read(&whole);
    assert_eq!((told, n), (expected, u64::from(expected.is_accepted())));
    let said = Said::new(told.number).numbers(&eight_of_day(&told, n));
    compare(both, "reading a day".to_string(), &[&whole], Call::day_read(&whole), said);

    let (told, body) = day_body(&whole, 1);
    assert_eq!((told, body == DayBody::None), (expected, !expected.is_accepted()));
    let said = Said::new(told.number).numbers(&ten_of_body(&told, &body));
    compare(both, "a body of a day".to_string(), &[&whole], Call::day_body(&whole, 1), said);

    let before = vec![0xc3; whole.len()];
    let DayWriteInput { names, lengths, bodies, mut room } = DayWriteInput::of(&day, before.clone());
    let (told, length) = day_write(&names, &lengths, &bodies, &mut room);
    assert_eq!(told, expected);
    assert_eq!(room, if told.is_accepted() { whole.clone() } else { before.clone() });
    let said = Said::new(told.number).bytes(&room).numbers(&eight_of_day(&told, length));
    let call = Call::day_write(&DayParts { names: &names, lengths: &lengths, bodies: &bodies }, &before);
    compare(both, "writing a day".to_string(), &[&bodies], call, said);
}

/// A request and its result that copies a text of each form, in one day file: as it is, and with older requests.
#[test]
fn a_day_of_requests_and_results() {
    let (mut both, mut rng) = (both(), Rng::new(settings::seed()));
    for (kinds, good) in PAIRS.into_iter().flat_map(|kinds| GOOD.map(|good| (kinds, good))) {
        let request = gen::request_of(&mut rng, kinds.request(), 1);
        for (text, told) in [
            (*good, DayAnswer::accepted()),
            (*b"HOSTING DUES    ", DayAnswer::refused(2, Answer::broken(1, 9, b"0087"))),
            (with(good, 15, 0x1f), DayAnswer::refused(1, Answer::broken(1, 9, b"0068"))),
        ] {
            let [asked, answered] = asked_and_answered(&request, &text, &text);
            let named = |file: Vec<u8>| NamedBody { name: file[19..27].to_vec(), file };
            // The result first, which is refused for no more than before.
            let day = DayDraft { bodies: vec![named(answered), named(asked)] }.file();
            let (answer, n) = day_read(&day);
            assert_eq!((answer, n), (told, if told.is_accepted() { 2 } else { 0 }));
            let said = Said::new(answer.number).numbers(&eight_of_day(&answer, n));
            compare(&mut both, "reading a day".to_string(), &[&day], Call::day_read(&day), said);
        }
    }
}
