//! The printing program of document 01, with the value that request A.4 gives a
//! byte, as a plain, fast ladder: the baseline for speed, and a second voice
//! beside reference.py. No library, no checks of a stage once it is there.
//! Build: rustc -C opt-level=3 plain.rs

use std::io::{self, Read, Write};

const P: u64 = 2_147_483_647;
const LARGEST_KEY: u64 = 2_147_483_646;
const LONGEST_PASSAGE: u64 = 1_048_576;
const LONGEST_CARD_RECORD: usize = 98;
/// A.5: "the stream run to 1099511627775 bytes".
const LAST_T: u64 = 1_099_511_627_775;
const BUFFER: usize = 65_536;
/// A.4: "Cards become kind 3".
const CARD_KIND: [u8; 2] = [3, 0];

const SPENT: u64 = 6;
const SHORT: u64 = 8;
const KIND: u64 = 9;
const MISFIT: u64 = 10;

// ---- Fingerprints ----------------------------------------------------------

fn power(key: u64, mut exponent: u64) -> u64 {
    let (mut result, mut square) = (1, key);
    while exponent > 0 {
        if exponent & 1 == 1 {
            result = result * square % P;
        }
        square = square * square % P;
        exponent >>= 1;
    }
    result
}

/// fp(uv) from fp(u), fp(v) and r^|v|.
fn join(front: u64, back: u64, power: u64) -> u64 {
    (front * power + back) % P
}

/// fp(v) from fp(uv), fp(u) and r^|v|.
fn cut(whole: u64, front: u64, power: u64) -> u64 {
    (whole + P - front * power % P) % P
}

// ---- Card ------------------------------------------------------------------

/// One tested beginning: its length, its fingerprint, and r^length.
#[derive(Clone, Copy)]
struct Tested {
    length: u64,
    print: u64,
    power: u64,
}

struct Card {
    key: u64,
    tested: Vec<Tested>,
}

/// The card and how many bytes it took, or the number of the refusal. Order:
/// 8, length under 2 (10), 9, length too small (10), other 10.
fn read_card(buffer: &[u8]) -> Result<(Card, usize), u64> {
    if buffer.len() < 4 || (buffer.len() as u64) < field(buffer, 0) + 4 {
        return Err(SHORT);
    }
    let length = field(buffer, 0);
    if length < 2 {
        return Err(MISFIT);
    }
    if buffer[4..6] != CARD_KIND {
        return Err(KIND);
    }
    if length < 10 {
        return Err(MISFIT);
    }
    let (m, key) = (field(buffer, 6), field(buffer, 10));
    if m < 1 || m > LONGEST_PASSAGE || key < 2 || key > LARGEST_KEY {
        return Err(MISFIT);
    }
    let k = m.next_power_of_two().trailing_zeros() as usize;
    if length != 10 + 4 * (k as u64 + 1) {
        return Err(MISFIT);
    }
    let mut tested = Vec::new();
    for i in 0..=k {
        let print = field(buffer, 14 + 4 * i);
        // A.4: "A card's first fingerprint [...] is then 1 to 256".
        if print >= P || (i == 0 && (print < 1 || print > 256)) {
            return Err(MISFIT);
        }
        let length = if i == k { m } else { 1 << i };
        tested.push(Tested {
            length,
            print,
            power: power(key, length),
        });
    }
    Ok((Card { key, tested }, length as usize + 4))
}

fn field(buffer: &[u8], at: usize) -> u64 {
    u32::from_le_bytes([buffer[at], buffer[at + 1], buffer[at + 2], buffer[at + 3]]) as u64
}

// ---- Ladder ----------------------------------------------------------------

/// A stage as a watch stores it.
#[derive(Clone, Copy, Default)]
struct Stage {
    held: u64,
    first: u64,
    f_first: u64,
    last: u64,
    f_last: u64,
    step: u64,
    step_print: u64,
}

/// Starts set aside together.
struct Set {
    first: u64,
    step: u64,
    many: u64,
}

impl Stage {
    fn of_one(start: u64, f: u64) -> Stage {
        Stage {
            held: 1,
            first: start,
            f_first: f,
            last: start,
            f_last: f,
            step: 0,
            step_print: 0,
        }
    }

    /// "Taking off the first of several adds the step to first and joins the
    /// step print to F_first; when one is left, last and F_last become first
    /// and F_first, and step and step print 0."
    fn take_off_first(&mut self, key: u64) {
        if self.held == 1 {
            *self = Stage::default();
            return;
        }
        let first = self.first + self.step;
        let f_first = join(self.f_first, self.step_print, power(key, self.step));
        if self.held == 2 {
            *self = Stage::of_one(first, f_first);
        } else {
            self.held -= 1;
            self.first = first;
            self.f_first = f_first;
        }
    }

    /// "The newcomer is added if its gap to the last start equals the step and
    /// the bytes of that gap have the step print. Otherwise all listed starts
    /// but the last are set aside [...]; the last and the newcomer remain. The
    /// print of a gap comes from F_last and the newcomer's F."
    fn enter(&mut self, start: u64, f: u64, key: u64) -> Option<Set> {
        if self.held == 0 {
            *self = Stage::of_one(start, f);
            return None;
        }
        let gap = start - self.last;
        let print = cut(f, self.f_last, power(key, gap));
        let mut set = None;
        if self.held >= 2 && (gap != self.step || print != self.step_print) {
            set = Some(Set {
                first: self.first,
                step: self.step,
                many: self.held - 1,
            });
            *self = Stage::of_one(self.last, self.f_last);
        }
        self.held += 1;
        self.last = start;
        self.f_last = f;
        self.step = gap;
        self.step_print = print;
        set
    }
}

struct Ladder {
    key: u64,
    tested: Vec<Tested>,
    stages: Vec<Stage>,
    t: u64,
    f: u64,
    total: u64,
}

impl Ladder {
    fn fresh(card: Card) -> Ladder {
        let stages = vec![Stage::default(); card.tested.len() - 1];
        Ladder {
            key: card.key,
            tested: card.tested,
            stages,
            t: 0,
            f: 0,
            total: 0,
        }
    }

    /// One byte. Its lines are printed as they come up: a ring can come only
    /// from the highest stage, which is visited first, so R stands before A.
    fn take(&mut self, byte: u8, out: &mut Output) {
        let k = self.stages.len();
        let before = self.f;
        // A.4: "byte b the value b + 1".
        let value = byte as u64 + 1;
        self.t += 1;
        self.f = (before * self.key + value) % P;
        self.total += 1;
        // "Stages are visited from k-1 down to 0. If stage i lists the start
        // t - |P_(i+1)|, it is taken off", and only its first can be that old.
        for i in (0..k).rev() {
            let Stage {
                held,
                first,
                f_first,
                ..
            } = self.stages[i];
            let next = self.tested[i + 1];
            if held == 0 || first + next.length != self.t {
                continue;
            }
            self.stages[i].take_off_first(self.key);
            self.total += 1;
            if cut(self.f, f_first, next.power) == next.print {
                self.matched(i + 1, first, f_first, out);
            }
        }
        // "Start t-1 is compared with P_0."
        if value == self.tested[0].print {
            self.matched(0, self.t - 1, before, out);
        }
    }

    /// "On a match it is rung if" P_i is the last, "else it enters stage" i.
    fn matched(&mut self, i: usize, start: u64, f: u64, out: &mut Output) {
        if i == self.stages.len() {
            out.line(b'R', &[self.t, start]);
        } else if let Some(set) = self.stages[i].enter(start, f, self.key) {
            out.line(b'A', &[self.t, set.first, set.step, set.many]);
        }
    }
}

// ---- Output ----------------------------------------------------------------

/// Lines on their way to standard output.
struct Output {
    waiting: Vec<u8>,
}

impl Output {
    fn line(&mut self, letter: u8, numbers: &[u64]) {
        self.waiting.push(letter);
        for &number in numbers {
            self.waiting.push(b' ');
            self.decimal(number);
        }
        self.waiting.push(b'\n');
        if self.waiting.len() >= BUFFER {
            self.flush();
        }
    }

    fn decimal(&mut self, mut number: u64) {
        let mut digits = [0u8; 20];
        let mut at = digits.len();
        loop {
            at -= 1;
            digits[at] = b'0' + (number % 10) as u8;
            number /= 10;
            if number == 0 {
                break;
            }
        }
        self.waiting.extend_from_slice(&digits[at..]);
    }

    /// Output that cannot be written ends the run.
    fn flush(&mut self) {
        if io::stdout().write_all(&self.waiting).is_err() {
            std::process::exit(1);
        }
        self.waiting.clear();
    }
}

// ---- The program -----------------------------------------------------------

/// Fills the buffer from `have` on until at least `want` bytes stand there or
/// the input ends; a read that fails ends it too. Hands back how many stand there.
fn fill(input: &mut impl Read, buffer: &mut [u8], mut have: usize, want: usize) -> usize {
    while have < want {
        match input.read(&mut buffer[have..]) {
            Ok(0) => break,
            Ok(n) => have += n,
            Err(e) if e.kind() == io::ErrorKind::Interrupted => {}
            Err(_) => break,
        }
    }
    have
}

fn listing(input: &mut impl Read, out: &mut Output) {
    let mut buffer = vec![0u8; BUFFER];
    let mut have = fill(input, &mut buffer, 0, LONGEST_CARD_RECORD);
    let (card, taken) = match read_card(&buffer[..have.min(LONGEST_CARD_RECORD)]) {
        Ok(read) => read,
        Err(number) => {
            out.line(b'X', &[number]);
            out.line(b'E', &[0, 0]);
            return;
        }
    };
    let mut ladder = Ladder::fresh(card);
    let mut from = taken;
    'stream: while have > 0 {
        for &byte in &buffer[from..have] {
            if ladder.t == LAST_T {
                out.line(b'X', &[SPENT]);
                break 'stream;
            }
            ladder.take(byte, out);
        }
        from = 0;
        have = fill(input, &mut buffer, 0, 1);
    }
    out.line(b'E', &[ladder.t, ladder.total]);
}

fn main() {
    let mut out = Output {
        waiting: Vec::with_capacity(2 * BUFFER),
    };
    listing(&mut io::stdin().lock(), &mut out);
    out.flush();
}
