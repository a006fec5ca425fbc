//! Calls of the proved library, made by the bridge (`bridge.c`): a program of its own, spoken to through pipes, which
//! watches all memory that it lends.
//!
//! One call at a time is [`ask`]ed; a [`Queue`] takes many, and sends them in batches while more are gathered.

use std::cell::RefCell;
use std::fmt;
use std::io::{self, Read, Write};
use std::os::unix::process::ExitStatusExt;
use std::path::Path;
use std::process::{Child, ChildStdin, ChildStdout, Command, ExitStatus, Stdio};

/// A function of the bridge: its number there, and what is lent to it, in order.
pub struct Function {
    pub number: u64,
    pub lent: &'static [&'static str],
}

/// One call as it is sent.
#[derive(Clone)]
pub struct Call {
    function: &'static Function,
    sent: Vec<u8>,
    /// How many bytes are lent to be written.
    written: usize,
}

/// What came of a call.
#[derive(Clone, Debug, PartialEq, Eq)]
pub struct Said {
    pub returned: u64,
    /// All memory that was lent to be written, as it is afterwards, in the order of the parameters.
    pub written: Vec<u8>,
}

/// A promise of the C face that a call broke.
#[derive(Clone, Copy, Debug, PartialEq, Eq)]
pub enum Breach {
    /// This was returned, and it isn't the answer's number.
    Returned(u64),
    /// What is only read was changed.
    Changed(&'static str),
    /// Bytes before what was lent were changed.
    Before(&'static str),
    /// The call never returned: it touched what wasn't lent, most often past the end of what was.
    Died(ExitStatus),
}

impl fmt::Display for Breach {
    fn fmt(&self, f: &mut fmt::Formatter<'_>) -> fmt::Result {
        match self {
            Breach::Returned(number) => write!(f, "{number} was returned, which isn't the answer's number"),
            Breach::Changed(lent) => write!(f, "{lent} was changed, which may only be read"),
            Breach::Before(lent) => write!(f, "memory before {lent} was changed"),
            Breach::Died(status) => {
                write!(f, "the call did not return ({status}): memory was touched that was not lent")
            }
        }
    }
}

// ------------------------------------------------------------------------- calls

/// Stands before a call that is to be made on a painted stack.
const PAINTED: u64 = 9;
/// Before one that is to be made on a thread with a small stack.
const THREADED: u64 = 24;

impl Call {
    pub fn of(function: &'static Function) -> Call {
        Call { function, sent: function.number.to_le_bytes().to_vec(), written: 0 }
    }

    pub fn number(mut self, number: u64) -> Call {
        self.sent.extend(number.to_le_bytes());
        self
    }

    /// Bytes that are only read.
    pub fn slice(self, bytes: &[u8]) -> Call {
        let mut call = self.number(bytes.len() as u64);
        call.sent.extend_from_slice(bytes);
        call
    }

    /// Bytes to be written, with what they hold before.
    pub fn room(mut self, bytes: &[u8]) -> Call {
        self.written += bytes.len();
        self.slice(bytes)
    }

    /// Numbers that are only read.
    pub fn numbers(self, numbers: &[u64]) -> Call {
        self.slice(&bytes_of(numbers))
    }

    /// Numbers to be written, with what they hold before.
    pub fn list(self, numbers: &[u64]) -> Call {
        self.room(&bytes_of(numbers))
    }

    /// So many numbers, which hold nothing that an answer would be.
    pub fn answer(mut self, numbers: usize) -> Call {
        self.written += 8 * numbers;
        self
    }

    /// The same call on a painted stack: how many bytes of it were touched is one more number, after all that is written.
    pub fn painted(mut self) -> Call {
        self.sent.splice(..0, PAINTED.to_le_bytes());
        self.answer(1)
    }

    /// The same call on a thread whose stack has 128 KB.
    pub fn on_a_thread(mut self) -> Call {
        self.sent.splice(..0, THREADED.to_le_bytes());
        self
    }

    /// How many bytes the bridge answers with.
    fn answered(&self) -> usize {
        16 + self.written
    }

    fn said(&self, answered: &[u8]) -> Result<Said, Breach> {
        let number = |at: usize| u64::from_le_bytes(answered[at..at + 8].try_into().expect("eight bytes"));
        let lent = |which: u64| self.function.lent[which as usize / 2];
        match number(0) {
            0 => Ok(Said { returned: number(8), written: answered[16..].to_vec() }),
            odd if odd % 2 == 1 => Err(Breach::Changed(lent(odd - 1))),
            even => Err(Breach::Before(lent(even - 2))),
        }
    }
}

fn bytes_of(numbers: &[u64]) -> Vec<u8> {
    numbers.iter().flat_map(|number| number.to_le_bytes()).collect()
}

impl Said {
    pub fn new(returned: u64) -> Said {
        Said { returned, written: Vec::new() }
    }

    /// Then these bytes were left in memory.
    pub fn bytes(mut self, bytes: &[u8]) -> Said {
        self.written.extend_from_slice(bytes);
        self
    }

    /// Then these numbers.
    pub fn numbers(mut self, numbers: &[u64]) -> Said {
        self.written.extend(bytes_of(numbers));
        self
    }

    /// Of a painted call: what the call itself said, and how many bytes of the stack it touched.
    pub fn and_touched(mut self) -> (Said, u64) {
        let touched = self.written.split_off(self.written.len() - 8);
        (self, u64::from_le_bytes(touched.try_into().expect("eight bytes")))
    }

    /// All that was written, as numbers.
    pub fn as_numbers(&self) -> Vec<u64> {
        let eight = |bytes: &[u8]| u64::from_le_bytes(bytes.try_into().expect("eight bytes"));
        self.written.chunks_exact(8).map(eight).collect()
    }
}

// ------------------------------------------------------------------- the program

/// What a bridge says first.
const THERE: u64 = 0x636d_735f_6661_6365;

struct Bridge {
    program: Child,
    calls: ChildStdin,
    answers: ChildStdout,
}

impl Bridge {
    fn start() -> Bridge {
        let script = Path::new(env!("CARGO_MANIFEST_DIR")).join("bridge.sh");
        let started = Command::new(&script)
            .arg("run")
            .stdin(Stdio::piped())
            .stdout(Stdio::piped())
            .stderr(Stdio::piped())
            .spawn();
        let mut program = started.unwrap_or_else(|error| panic!("{}: {error}", script.display()));
        let calls = program.stdin.take().expect("a pipe");
        let answers = program.stdout.take().expect("a pipe");
        let mut bridge = Bridge { program, calls, answers };
        match bridge.number() {
            Ok(THERE) => bridge,
            _ => panic!("the bridge did not start: {}", bridge.last_words()),
        }
    }

    fn number(&mut self) -> io::Result<u64> {
        let mut bytes = [0; 8];
        self.answers.read_exact(&mut bytes)?;
        Ok(u64::from_le_bytes(bytes))
    }

    fn send(&mut self, calls: &[u8]) -> io::Result<()> {
        self.calls.write_all(&(calls.len() as u64).to_le_bytes())?;
        self.calls.write_all(calls)
    }

    fn receive(&mut self, length: usize) -> io::Result<Vec<u8>> {
        let said = self.number()?;
        assert_eq!(said, length as u64, "the bridge answers with another length");
        let mut answers = vec![0; length];
        self.answers.read_exact(&mut answers)?;
        Ok(answers)
    }

    /// How a bridge ended that answers no more. Only a signal tells of the library.
    fn ended(mut self) -> ExitStatus {
        let status = self.program.wait().expect("a child");
        assert!(status.signal().is_some(), "the bridge gave up ({status}): {}", self.last_words());
        status
    }

    fn last_words(&mut self) -> String {
        let mut words = String::new();
        if let Some(errors) = &mut self.program.stderr {
            // What was said before this failed is the best that there is.
            let _ = errors.read_to_string(&mut words);
        }
        words.trim_end().to_string()
    }
}

impl Drop for Bridge {
    fn drop(&mut self) {
        // It has nothing left to say, or has ended already.
        let _ = self.program.kill();
        let _ = self.program.wait();
    }
}

thread_local! {
    /// For single calls.
    static BRIDGE: RefCell<Option<Bridge>> = const { RefCell::new(None) };
}

/// One call, and what came of it.
pub fn ask(call: &Call) -> Result<Said, Breach> {
    BRIDGE.with_borrow_mut(|bridge| {
        let there = bridge.get_or_insert_with(Bridge::start);
        let answered = there.send(&call.sent).and_then(|()| there.receive(call.answered()));
        match (answered, bridge.take()) {
            (Ok(answered), there) => {
                *bridge = there;
                call.said(&answered)
            }
            (Err(_), there) => Err(Breach::Died(there.expect("it was asked").ended())),
        }
    })
}

// -------------------------------------------------------------------- many calls

/// A batch is sent when its calls and answers are so many bytes.
const BATCH: usize = 1 << 20;

/// Many calls, each with its input and with what must come of it; where something else does, the input is reported.
///
/// What is still on its way when the queue is dropped is waited for, so no call is left unchecked.
pub struct Queue<T> {
    report: fn(&T) -> !,
    bridge: Bridge,
    gathered: Batch<T>,
    sent: Batch<T>,
}

struct Batch<T> {
    calls: Vec<Waiting<T>>,
    bytes: Vec<u8>,
    answered: usize,
}

struct Waiting<T> {
    input: T,
    call: Call,
    expected: Said,
}

impl<T> Batch<T> {
    fn new() -> Batch<T> {
        Batch { calls: Vec::new(), bytes: Vec::new(), answered: 0 }
    }
}

impl<T> Queue<T> {
    pub fn new(report: fn(&T) -> !) -> Queue<T> {
        Queue { report, bridge: Bridge::start(), gathered: Batch::new(), sent: Batch::new() }
    }

    pub fn push(&mut self, input: T, call: Call, expected: Said) {
        let Batch { calls, bytes, answered } = &mut self.gathered;
        bytes.extend_from_slice(&call.sent);
        *answered += call.answered();
        calls.push(Waiting { input, call, expected });
        if self.gathered.bytes.len() + self.gathered.answered >= BATCH {
            self.turn();
        }
    }

    /// Checks what was sent before, and sends what was gathered. The bridge reads a batch whole before it answers, so
    /// neither waits for the other.
    fn turn(&mut self) {
        let sent = std::mem::replace(&mut self.sent, Batch::new());
        if !sent.calls.is_empty() {
            match self.bridge.receive(sent.answered) {
                Ok(answers) => self.check(&sent, &answers),
                Err(_) => self.find(&sent),
            }
        }
        std::mem::swap(&mut self.sent, &mut self.gathered);
        if !self.sent.calls.is_empty() && self.bridge.send(&self.sent.bytes).is_err() {
            self.find(&self.sent);
        }
    }

    fn check(&self, sent: &Batch<T>, answers: &[u8]) {
        let mut rest = answers;
        for Waiting { input, call, expected } in &sent.calls {
            let (answered, after) = rest.split_at(call.answered());
            rest = after;
            let said = call.said(answered);
            if said.as_ref() != Ok(expected) {
                let alone = ask(call);
                assert!(
                    alone.as_ref() != Ok(expected),
                    "a call has two answers: {said:?}, and alone {alone:?}"
                );
                (self.report)(input);
            }
        }
    }

    /// Asks one by one, since the bridge died of one of them.
    fn find(&self, sent: &Batch<T>) -> ! {
        for Waiting { input, call, expected } in &sent.calls {
            if ask(call).as_ref() != Ok(expected) {
                (self.report)(input);
            }
        }
        panic!("the bridge died in a batch of {} calls, and of none of them alone", sent.calls.len());
    }
}

impl<T> Drop for Queue<T> {
    fn drop(&mut self) {
        if !std::thread::panicking() {
            self.turn();
            self.turn();
        }
    }
}

#[cfg(test)]
mod tests {
    use super::*;

    const TOUCH: Function = Function { number: 7, lent: &["the slice"] };

    /// The bridge itself touches the byte at this place of a slice, and writes it unless `with` is 0.
    fn touch(length: usize, place: i64, with: u8) -> Call {
        let slice: Vec<u8> = (0..length).map(|at| b'a' + (at % 26) as u8).collect();
        Call::of(&TOUCH).slice(&slice).number(place as u64).number(with.into())
    }

    /// A file of evidence with two blocks more than it may have.
    const LONGEST: usize = 4_198_400;

    #[test]
    fn a_read_inside_is_no_breach() {
        for length in [1, 27, 150, 4096, 70_000, LONGEST] {
            for place in [0, length / 2, length - 1] {
                let byte = b'a' + (place % 26) as u8;
                assert_eq!(ask(&touch(length, place as i64, 0)), Ok(Said::new(byte.into())));
                assert_eq!(ask(&touch(length, place as i64, byte)), Ok(Said::new(byte.into())));
            }
        }
    }

    #[test]
    fn a_write_into_or_before_what_is_only_read_is_seen() {
        for length in [1, 27, 150, 4096, 70_000, LONGEST] {
            for place in [0, length / 2, length - 1] {
                let changed = Err(Breach::Changed("the slice"));
                assert_eq!(ask(&touch(length, place as i64, b'!')), changed);
            }
        }
        for length in [0, 1, 27, 150, 4096, 70_000] {
            for before in 1..=64 {
                assert_eq!(ask(&touch(length, -before, b'!')), Err(Breach::Before("the slice")));
            }
        }
    }

    #[test]
    fn a_touch_past_the_end_is_seen() {
        let touched = |call: &Call| match ask(call) {
            Err(Breach::Died(status)) => status.signal(),
            other => panic!("{other:?}"),
        };
        for length in [0, 1, 150, 4096, LONGEST] {
            for past in [0, 1, 7, 4095, 65_535] {
                assert_eq!(touched(&touch(length, length as i64 + past, 0)), Some(11), "read");
            }
            assert_eq!(touched(&touch(length, length as i64, b'!')), Some(11), "written");
        }
    }

    const DIG: Function = Function { number: 8, lent: &[] };

    /// What a call touched itself stands above all that it took of the stack, and is little.
    #[test]
    fn what_is_touched_of_a_painted_stack_is_told() {
        for bytes in [1, 100, 4096, 65_536, 1_000_000] {
            let (said, touched) =
                ask(&Call::of(&DIG).number(bytes).painted()).expect("no breach").and_touched();
            assert_eq!(said, Said::new(1));
            assert!((bytes..bytes + 100).contains(&touched), "{touched} of {bytes}");
        }
    }

    #[test]
    fn a_painted_stack_ends() {
        let past = Call::of(&DIG).number((1 << 20) + 1).painted();
        assert!(matches!(ask(&past), Err(Breach::Died(status)) if status.signal() == Some(11)));
    }

    /// On a painted stack memory is watched as on any other.
    #[test]
    fn a_painted_call_says_what_it_says_unpainted() {
        let (said, touched) = ask(&touch(27, 3, 0).painted()).expect("no breach").and_touched();
        assert_eq!(said, Said::new(b'd'.into()));
        assert!((8..100).contains(&touched), "{touched}");
        assert_eq!(ask(&touch(27, 3, b'!').painted()), Err(Breach::Changed("the slice")));
        assert_eq!(ask(&touch(27, -1, b'!').painted()), Err(Breach::Before("the slice")));
    }

    /// On a thread 96 KB may be used and more, but not all of its 128 KB, where the thread's own lies, too.
    #[test]
    fn a_threads_stack_has_128_kb() {
        let dig = |bytes: u64| ask(&Call::of(&DIG).number(bytes).on_a_thread());
        for bytes in [1, 4_096, 98_304, 120_000] {
            assert_eq!(dig(bytes), Ok(Said::new(1)), "{bytes} bytes");
        }
        for bytes in [131_072, 150_000, 180_000] {
            assert!(
                matches!(dig(bytes), Err(Breach::Died(status)) if status.signal() == Some(11)),
                "{bytes} bytes"
            );
        }
    }

    /// On a thread memory is watched as on any other stack.
    #[test]
    fn a_call_on_a_thread_says_what_it_says_without() {
        assert_eq!(ask(&touch(27, 3, 0).on_a_thread()), Ok(Said::new(b'd'.into())));
        assert_eq!(ask(&touch(27, 3, b'!').on_a_thread()), Err(Breach::Changed("the slice")));
        assert_eq!(ask(&touch(27, -1, b'!').on_a_thread()), Err(Breach::Before("the slice")));
        assert!(matches!(ask(&touch(27, 27, 0).on_a_thread()), Err(Breach::Died(_))));
    }

    /// A queue of 30,000 inputs, one of which is another call, or is said to give something else.
    fn queue(odd: impl Fn(usize) -> Option<(Call, Said)>) {
        let mut queue = Queue::new(|input: &usize| panic!("input {input} it is"));
        for input in 0..30_000 {
            let place = input % 100;
            let usual = (touch(100, place as i64, 0), Said::new(u64::from(b'a') + place as u64 % 26));
            let (call, said) = odd(input).unwrap_or(usual);
            queue.push(input, call, said);
        }
    }

    #[test]
    fn many_calls_are_answered_in_their_order() {
        queue(|_| None);
    }

    #[test]
    #[should_panic(expected = "input 23456 it is")]
    fn what_is_not_expected_is_reported_with_its_input() {
        queue(|input| (input >= 23_456).then(|| (touch(1, 0, 0), Said::new(0))));
    }

    #[test]
    #[should_panic(expected = "input 29999 it is")]
    fn the_last_call_is_not_left_out() {
        queue(|input| (input == 29_999).then(|| (touch(1, 0, 0), Said::new(0))));
    }

    /// In front of what is watched lies what was lent before, so this byte is 0 in a new bridge only.
    #[test]
    #[should_panic(expected = "a call has two answers")]
    fn what_depends_on_earlier_calls_is_seen() {
        queue(|input| (input == 20_000).then(|| (touch(1, -70, 0), Said::new(0))));
    }

    #[test]
    #[should_panic(expected = "input 12345 it is")]
    fn a_call_that_never_returns_is_reported_with_its_input() {
        queue(|input| (input == 12_345).then(|| (touch(1, 1, 0), Said::new(0))));
    }
}
