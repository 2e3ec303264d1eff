// The job of carwatch in plain Rust, to compare its time and its output with: std only, windows kept as clock pairs in
// Vecs, nothing proved. Build it by `rustc -O`.
use std::io::{self, BufWriter, Read, Write};

const DAY: u32 = 864_000;
const MEMORIES: usize = 64;

#[derive(Clone, Copy)]
enum Row {
    Input(u32),
    Not(usize),
    And(usize, usize),
    Or(usize, usize),
    Once(usize),
    Always(usize),
    Since(usize, usize),
    Rule(u32, usize),
}

// The chain, and the window of each timed row.
struct Plan {
    rows: Vec<Row>,
    windows: Vec<(u32, u32)>,
    rules: usize,
}

// A window and its episodes, oldest first: the age of the rise, and the ticks since the fall.
#[derive(Clone)]
struct Memory {
    a: u32,
    b: u32,
    episodes: Vec<(u32, u32)>,
}

impl Memory {
    fn take(&mut self, operand: bool, n: u32) {
        let b = self.b;
        let goes_on = operand
            && self
                .episodes
                .last()
                .is_some_and(|&(_, fall)| fall <= b - self.a);
        for e in &mut self.episodes {
            e.0 = (e.0 + n).min(b);
            e.1 = (e.1 + n).min(b);
        }
        if goes_on {
            if let Some(e) = self.episodes.last_mut() {
                e.1 = 0;
            }
        } else if operand {
            self.episodes.push((n.min(b), 0));
        }
        self.episodes.retain(|e| e.1 < b);
    }

    // The reading of the next tick, and for how long it lasts.
    fn run(&self, operand: bool) -> (bool, u32) {
        match self.episodes.first() {
            None if !operand => (false, u32::MAX),
            None if self.a == 0 => (true, u32::MAX),
            None => (false, self.a),
            Some(&(rise, fall)) => {
                let start = self.a.saturating_sub(rise);
                let end = self.b - fall;
                if start > 0 {
                    (false, start)
                } else if operand && self.a <= end {
                    (true, u32::MAX)
                } else {
                    (true, end)
                }
            }
        }
    }
}

#[derive(Clone, Copy, PartialEq)]
enum State {
    Vacant,
    Running,
    Ended,
}

struct Watch {
    plan: Plan,
    cars: Vec<(u16, State)>,
    memories: Vec<Memory>,
    readings: Vec<bool>,
}

type Refusal = (u32, u32);

fn four(bytes: &[u8]) -> u32 {
    u32::from_be_bytes([bytes[0], bytes[1], bytes[2], bytes[3]])
}

fn served(a: u32, b: u32) -> bool {
    1 + (b - 1) / (b - a + 2) <= 32
}

// One row of the table, with places in place of its operands' numbers.
fn decode_row(
    row: &[u8],
    number: u32,
    place_of: &[Option<usize>],
    is_rule: &[bool],
    used: &mut [bool],
) -> Result<(Row, Option<(u32, u32)>), Refusal> {
    let (letter, n, left, right) = (row[0], row[1] as u32, row[2] as usize, row[3] as usize);
    let (a, b) = (four(&row[8..]), four(&row[12..]));
    // which of number, left, right and window the letter uses, and the highest number
    let (top, uses_left, uses_right, timed) = match letter {
        b'P' => (31, false, false, false),
        b'N' => (0, true, false, false),
        b'A' | b'O' => (0, true, true, false),
        b'D' | b'B' => (0, true, false, true),
        b'S' => (0, true, true, true),
        b'R' => (15, true, false, false),
        _ => return Err((4, number)),
    };
    if n > top
        || (!uses_left && left != 0)
        || (!uses_right && right != 0)
        || (!timed && (a != 0 || b != 0))
        || row[5..8] != [0; 3]
    {
        return Err((5, number));
    }
    let place = |used: bool, operand: usize| -> Result<usize, Refusal> {
        if !used {
            return Ok(0);
        }
        match place_of.get(operand).copied().flatten() {
            Some(at) if !is_rule[at] => Ok(at),
            _ => Err((6, number)),
        }
    };
    let (l, r) = (place(uses_left, left)?, place(uses_right, right)?);
    if timed && !(a < b && b <= DAY) {
        return Err((7, number));
    }
    if letter == b'R' && std::mem::replace(&mut used[n as usize], true) {
        return Err((8, number));
    }
    if timed && !served(a, b) {
        return Err((9, number));
    }
    let row = match letter {
        b'P' => Row::Input(n),
        b'N' => Row::Not(l),
        b'A' => Row::And(l, r),
        b'O' => Row::Or(l, r),
        b'D' => Row::Once(l),
        b'B' => Row::Always(l),
        b'S' => Row::Since(l, r),
        _ => Row::Rule(n, l),
    };
    Ok((row, timed.then_some((a, b))))
}

fn decode(bytes: &[u8]) -> Result<Plan, Refusal> {
    if bytes.len() < 8 {
        return Err((1, 0));
    }
    if &bytes[..4] != b"LWRT" {
        return Err((2, 0));
    }
    let (count, first) = (bytes[4] as usize, bytes[5] as usize);
    if count == 0 || count > 64 || first == 0 || first > count || bytes[6..8] != [0; 2] {
        return Err((3, 0));
    }
    if bytes.len() != 8 + 16 * count {
        return Err((1, 0));
    }
    let mut plan = Plan {
        rows: Vec::new(),
        windows: Vec::new(),
        rules: 0,
    };
    let mut place_of = vec![None; count + 1];
    let (mut is_rule, mut used) = (Vec::new(), vec![false; 16]);
    let mut at = first;
    while at != 0 {
        let row = &bytes[8 + 16 * (at - 1)..8 + 16 * at];
        let (decoded, window) = decode_row(row, at as u32, &place_of, &is_rule, &mut used)?;
        let next = row[4] as usize;
        if next > count || next == at || (next != 0 && place_of[next].is_some()) {
            return Err((10, at as u32));
        }
        place_of[at] = Some(plan.rows.len());
        is_rule.push(matches!(decoded, Row::Rule(..)));
        plan.rules += usize::from(matches!(decoded, Row::Rule(..)));
        plan.rows.push(decoded);
        plan.windows.extend(window);
        at = next;
    }
    if plan.rules == 0 {
        return Err((11, 0));
    }
    Ok(plan)
}

fn set(table: &[u8], list: &[u16]) -> Result<Watch, Refusal> {
    let plan = decode(table)?;
    if list.is_empty() || list.len() > 32 {
        return Err((12, 0));
    }
    let mut cars = Vec::new();
    for (i, &car) in list.iter().enumerate() {
        if car == 0 || list[..i].contains(&car) {
            return Err((12, i as u32 + 1));
        }
        cars.push((car, State::Vacant));
    }
    if MEMORIES < cars.len() * plan.windows.len() {
        return Err((13, 0));
    }
    let mut memories = Vec::new();
    for _ in &cars {
        for &(a, b) in &plan.windows {
            memories.push(Memory {
                a,
                b,
                episodes: Vec::new(),
            });
        }
    }
    let readings = vec![false; plan.rows.len()];
    Ok(Watch {
        plan,
        cars,
        memories,
        readings,
    })
}

// The readings of the next tick: the verdict word and for how long none changes.
fn next(plan: &Plan, inputs: u32, part: &[Memory], readings: &mut [bool]) -> (u16, u32) {
    let (mut word, mut lasts) = (0, u32::MAX);
    let mut memories = part.iter();
    let mut timed = |used: bool, operand: bool| match memories.next() {
        Some(memory) if used => {
            let (on, n) = memory.run(operand);
            lasts = lasts.min(n);
            on
        }
        _ => false,
    };
    for (k, row) in plan.rows.iter().enumerate() {
        readings[k] = match *row {
            Row::Input(bit) => inputs >> bit & 1 == 1,
            Row::Not(l) => !readings[l],
            Row::And(l, r) => readings[l] && readings[r],
            Row::Or(l, r) => readings[l] || readings[r],
            Row::Once(l) => timed(true, readings[l]),
            Row::Always(l) => !timed(true, !readings[l]),
            Row::Since(l, r) => timed(readings[l], readings[r]),
            Row::Rule(number, l) => {
                word |= u16::from(readings[l]) << number;
                readings[l]
            }
        };
    }
    (word, lasts)
}

fn advance(plan: &Plan, readings: &[bool], n: u32, part: &mut [Memory]) {
    let mut at = 0;
    for row in &plan.rows {
        match *row {
            Row::Once(l) => part[at].take(readings[l], n),
            Row::Always(l) => part[at].take(!readings[l], n),
            Row::Since(l, r) if readings[l] => part[at].take(readings[r], n),
            Row::Since(..) => part[at].episodes.clear(),
            _ => continue,
        }
        at += 1;
    }
}

fn check(bytes: &[u8]) -> Result<(), Refusal> {
    if bytes.len() != 12 {
        return Err((14, 0));
    }
    let letter = bytes[0];
    if !matches!(letter, b'R' | b'I' | b'E') {
        return Err((15, 0));
    }
    if bytes[1] != 0 {
        return Err((16, 1));
    }
    if bytes[2..4] == [0; 2] {
        return Err((16, 2));
    }
    let (ticks, word) = (four(&bytes[4..]), four(&bytes[8..]));
    let inputs = letter == b'I';
    if (inputs && (ticks == 0 || ticks > DAY)) || (!inputs && ticks != 0) {
        return Err((16, 4));
    }
    if !inputs && word != 0 {
        return Err((16, 8));
    }
    Ok(())
}

fn feed(watch: &mut Watch, bytes: &[u8], out: &mut impl Write) -> io::Result<Result<(), Refusal>> {
    if let Err(refusal) = check(bytes) {
        return Ok(Err(refusal));
    }
    let car = u16::from_be_bytes([bytes[2], bytes[3]]);
    let Some(place) = watch.cars.iter().position(|c| c.0 == car) else {
        return Ok(Err((17, car as u32)));
    };
    let state = &mut watch.cars[place].1;
    let timed = watch.plan.windows.len();
    let part = &mut watch.memories[place * timed..(place + 1) * timed];
    if bytes[0] == b'R' {
        *state = State::Running;
        part.iter_mut().for_each(|m| m.episodes.clear());
        writeln!(out, "K {car}")?;
        return Ok(Ok(()));
    }
    if *state != State::Running {
        return Ok(Err((18, car as u32)));
    }
    if bytes[0] == b'E' {
        *state = State::Ended;
        writeln!(out, "K {car}")?;
        return Ok(Ok(()));
    }
    let (mut left, inputs) = (four(&bytes[4..]), four(&bytes[8..]));
    let (mut word, mut lasts) = next(&watch.plan, inputs, part, &mut watch.readings);
    while left > 0 {
        let (verdict, mut n) = (word, 0);
        while left > 0 && word == verdict {
            let step = lasts.min(left);
            advance(&watch.plan, &watch.readings, step, part);
            n += step;
            left -= step;
            (word, lasts) = next(&watch.plan, inputs, part, &mut watch.readings);
        }
        writeln!(out, "V {car} {verdict} {n}")?;
    }
    Ok(Ok(()))
}

// The input behind a buffer. What was written goes out before more is waited for.
struct Wire<R, W: Write> {
    input: R,
    buffer: [u8; 8192],
    at: usize,
    end: usize,
    out: BufWriter<W>,
}

impl<R: Read, W: Write> Wire<R, W> {
    fn take(&mut self, piece: &mut [u8]) -> io::Result<usize> {
        let mut came = 0;
        while came < piece.len() {
            if self.at == self.end {
                self.out.flush()?;
                self.at = 0;
                self.end = self.input.read(&mut self.buffer)?;
                if self.end == 0 {
                    break;
                }
            }
            let n = (self.end - self.at).min(piece.len() - came);
            piece[came..came + n].copy_from_slice(&self.buffer[self.at..self.at + n]);
            self.at += n;
            came += n;
        }
        Ok(came)
    }
}

fn main() -> io::Result<()> {
    let mut wire = Wire {
        input: io::stdin().lock(),
        buffer: [0; 8192],
        at: 0,
        end: 0,
        out: BufWriter::with_capacity(8192, io::stdout().lock()),
    };
    let mut number = [0];
    wire.take(&mut number)?;
    let mut cars = Vec::new();
    for _ in 0..number[0] {
        let mut car = [0; 2];
        if wire.take(&mut car)? < 2 {
            break;
        }
        cars.push(u16::from_be_bytes(car));
    }
    let mut table = vec![0; 8 + 16 * 255];
    let mut came = wire.take(&mut table[..8])?;
    if came == 8 {
        let end = 8 + 16 * table[4] as usize;
        came += wire.take(&mut table[8..end])?;
    }
    match set(&table[..came], &cars) {
        Err((number, place)) => writeln!(wire.out, "X {number} {place}")?,
        Ok(mut watch) => {
            let (rows, timed) = (watch.plan.rows.len(), watch.plan.windows.len());
            writeln!(wire.out, "T {rows} {} {timed}", watch.plan.rules)?;
            loop {
                let mut bytes = [0; 12];
                let came = wire.take(&mut bytes)?;
                if came == 0 {
                    break;
                }
                if let Err((number, place)) = feed(&mut watch, &bytes[..came], &mut wire.out)? {
                    writeln!(wire.out, "X {number} {place}")?;
                }
            }
        }
    }
    wire.out.flush()
}
