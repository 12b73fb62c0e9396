//! Plain program: reads a rule sheet and a log image from standard input and
//! prints one verdict a rule, or one refusal.
//!
//! Ordinary safe Rust, standard library only.  Build: rustc --edition 2021 -O plain.rs
//!
//! The rules are built as trees and judged by recursion over them, in three values.

use std::io::{self, Read, Write};

const MOST_BYTES: usize = 64_520;

// ---------------------------------------------------------------- the log

#[derive(Clone, Copy)]
struct Value {
    code: u8,
    /// None is unread.
    number: Option<i32>,
}

struct Event {
    time: i32,
    name: u8,
    values: Vec<Value>,
}

fn u16_at(bytes: &[u8], at: usize) -> usize {
    u16::from_le_bytes([bytes[at], bytes[at + 1]]) as usize
}

fn i32_at(bytes: &[u8], at: usize) -> i32 {
    i32::from_le_bytes([bytes[at], bytes[at + 1], bytes[at + 2], bytes[at + 3]])
}

/// The event whose time and body are given, or None if it is out of its bounds.
fn read_event(time: i32, body: &[u8]) -> Option<Event> {
    if time < 0 {
        return None;
    }
    let (name, count) = (body[0], body[1] as usize);
    if name == 0 || count > 4 || body[2] != 0 || body[3] != 0 {
        return None;
    }
    let mut values = Vec::new();
    for slot in 0..4 {
        let at = 4 + 6 * slot;
        let (code, state, number) = (body[at], body[at + 1], i32_at(body, at + 2));
        if slot >= count {
            if code != 0 || state != 0 || number != 0 {
                return None;
            }
            continue;
        }
        if code == 0 {
            return None;
        }
        let number = match state {
            0 if number == 0 => None,
            1 => Some(number),
            _ => return None,
        };
        values.push(Value { code, number });
    }
    Some(Event { time, name, values })
}

/// The events of an image, or the lowest bad event (65535 for sizes).
fn read_image(bytes: &[u8]) -> Result<Vec<Event>, usize> {
    if bytes.len() < 4 {
        return Err(65_535);
    }
    let n = u16_at(bytes, 0);
    if u16_at(bytes, 2) != 28 || bytes.len() != 4 + 32 * n {
        return Err(65_535);
    }
    let mut events: Vec<Event> = Vec::new();
    for i in 0..n {
        let time = i32_at(bytes, 4 + 4 * i);
        let body_at = 4 + 4 * n + 28 * i;
        let event = read_event(time, &bytes[body_at..body_at + 28]).ok_or(i)?;
        if let Some(before) = events.last() {
            if event.time < before.time {
                return Err(i);
            }
        }
        events.push(event);
    }
    Ok(events)
}

// ---------------------------------------------------------------- the rules

enum Term {
    Constant(i32),
    Time(usize),
    ValueOf(usize, u8),
    Number(usize),
    Step(Operation, Box<Numbered>, Box<Numbered>),
}

/// A term with its row in the sheet.
struct Numbered {
    row: usize,
    term: Term,
}

#[derive(Clone, Copy)]
enum Operation {
    Sum,
    Difference,
    Product,
    Quotient,
}

enum Test {
    True,
    Not(Box<Test>),
    And(Box<Test>, Box<Test>),
    Or(Box<Test>, Box<Test>),
    Compare(Comparison, Numbered, Numbered),
}

#[derive(Clone, Copy)]
enum Comparison {
    Equal,
    Less,
    AtMost,
}

/// A name and a test: what an event row asks at a place.
struct Pattern {
    name: u8,
    test: Test,
}

#[derive(Clone, Copy)]
enum Scope {
    After,
    Before,
    Given,
}

#[derive(Clone, Copy)]
enum Which {
    First,
    Last,
    Each,
}

enum Property {
    Not(Box<Property>),
    Or(Box<Property>, Box<Property>),
    And(Box<Property>, Box<Property>),
    Implies(Box<Property>, Box<Property>),
    Occurrence(usize, Pattern),
    Absence(Pattern),
    Scoped {
        scope: Scope,
        which: Which,
        /// 0 is none.
        duration: i32,
        delimiter: Pattern,
        inner: Box<Property>,
    },
    Forall(usize, u8, Box<Property>),
    Exists(usize, u8, Box<Property>),
}

// ---------------------------------------------------------------- the sheet

struct Row {
    kind: u8,
    a: u8,
    b: u8,
    c: u8,
    number: i32,
}

#[derive(Clone, Copy, PartialEq)]
enum Sort {
    Event,
    Number,
}

/// Walks the rows in prefix order.  An error is the first bad row.
struct Reader {
    rows: Vec<Row>,
    next: usize,
    /// The sorts of the known variables, by their number.
    known: Vec<Sort>,
}

type Bad = usize;

impl Reader {
    /// The next row's number; N if the rows run out.
    fn step(&mut self) -> Result<usize, Bad> {
        let at = self.next;
        if at >= self.rows.len() {
            return Err(self.rows.len());
        }
        self.next += 1;
        Ok(at)
    }

    fn demand(&self, at: usize, fine: bool) -> Result<(), Bad> {
        if fine {
            Ok(())
        } else {
            Err(at)
        }
    }

    fn is_known(&self, variable: u8, sort: Sort) -> bool {
        self.known.get(variable as usize) == Some(&sort)
    }

    fn bind(&mut self, at: usize, sort: Sort) -> Result<(), Bad> {
        self.demand(at, self.known.len() < 8)?;
        self.known.push(sort);
        Ok(())
    }

    fn property(&mut self) -> Result<Property, Bad> {
        let at = self.step()?;
        let Row { kind, a, b, c, number } = self.rows[at];
        self.demand(at, c == 0)?;
        match kind {
            1..=4 => {
                self.demand(at, a == 0 && b == 0 && number == 0)?;
                let p = Box::new(self.property()?);
                if kind == 1 {
                    return Ok(Property::Not(p));
                }
                let q = Box::new(self.property()?);
                Ok(match kind {
                    2 => Property::Or(p, q),
                    3 => Property::And(p, q),
                    _ => Property::Implies(p, q),
                })
            }
            5 => {
                self.demand(at, a != 0 && b == 0 && (0..=65_535).contains(&number))?;
                self.bind(at, Sort::Event)?;
                let test = self.test()?;
                self.known.pop();
                Ok(Property::Occurrence(number as usize, Pattern { name: a, test }))
            }
            6 => {
                self.demand(at, a != 0 && b == 0 && number == 0)?;
                self.bind(at, Sort::Event)?;
                let test = self.test()?;
                self.known.pop();
                Ok(Property::Absence(Pattern { name: a, test }))
            }
            7..=9 => {
                self.demand(at, a != 0 && number >= 0)?;
                self.demand(at, kind != 9 || number == 0)?;
                let which = match b {
                    1 => Which::First,
                    2 => Which::Last,
                    3 => Which::Each,
                    _ => return Err(at),
                };
                self.bind(at, Sort::Event)?;
                let test = self.test()?;
                let inner = Box::new(self.property()?);
                self.known.pop();
                Ok(Property::Scoped {
                    scope: match kind {
                        7 => Scope::After,
                        8 => Scope::Before,
                        _ => Scope::Given,
                    },
                    which,
                    duration: number,
                    delimiter: Pattern { name: a, test },
                    inner,
                })
            }
            10 | 11 => {
                self.demand(at, self.is_known(a, Sort::Event) && b != 0 && number == 0)?;
                self.bind(at, Sort::Number)?;
                let inner = Box::new(self.property()?);
                self.known.pop();
                Ok(if kind == 10 {
                    Property::Forall(a as usize, b, inner)
                } else {
                    Property::Exists(a as usize, b, inner)
                })
            }
            _ => Err(at),
        }
    }

    fn test(&mut self) -> Result<Test, Bad> {
        let at = self.step()?;
        let Row { kind, a, b, c, number } = self.rows[at];
        self.demand(at, a == 0 && b == 0 && c == 0 && number == 0)?;
        match kind {
            20 => Ok(Test::True),
            21 => Ok(Test::Not(Box::new(self.test()?))),
            22 | 23 => {
                let t = Box::new(self.test()?);
                let u = Box::new(self.test()?);
                Ok(if kind == 22 { Test::And(t, u) } else { Test::Or(t, u) })
            }
            24..=26 => {
                let left = self.term()?;
                let right = self.term()?;
                let comparison = match kind {
                    24 => Comparison::Equal,
                    25 => Comparison::Less,
                    _ => Comparison::AtMost,
                };
                Ok(Test::Compare(comparison, left, right))
            }
            _ => Err(at),
        }
    }

    fn term(&mut self) -> Result<Numbered, Bad> {
        let at = self.step()?;
        let Row { kind, a, b, c, number } = self.rows[at];
        self.demand(at, c == 0)?;
        let term = match kind {
            30 => {
                self.demand(at, a == 0 && b == 0)?;
                Term::Constant(number)
            }
            31 => {
                self.demand(at, self.is_known(a, Sort::Event) && b == 0 && number == 0)?;
                Term::Time(a as usize)
            }
            32 => {
                self.demand(at, self.is_known(a, Sort::Event) && b != 0 && number == 0)?;
                Term::ValueOf(a as usize, b)
            }
            33 => {
                self.demand(at, self.is_known(a, Sort::Number) && b == 0 && number == 0)?;
                Term::Number(a as usize)
            }
            34..=37 => {
                self.demand(at, a == 0 && b == 0 && number == 0)?;
                let left = Box::new(self.term()?);
                let right = Box::new(self.term()?);
                let operation = match kind {
                    34 => Operation::Sum,
                    35 => Operation::Difference,
                    36 => Operation::Product,
                    _ => Operation::Quotient,
                };
                Term::Step(operation, left, right)
            }
            _ => return Err(at),
        };
        Ok(Numbered { row: at, term })
    }
}

/// The rules of a sheet and the number of bytes it takes, or the first bad row.
fn read_sheet(bytes: &[u8]) -> Result<(Vec<Property>, usize), Bad> {
    if bytes.len() < 4 {
        return Err(0);
    }
    let (r, n) = (u16_at(bytes, 0), u16_at(bytes, 2));
    if r < 1 || r > 16 || n < r || n > 64 || bytes.len() < 4 + 8 * n {
        return Err(0);
    }
    let rows = (0..n)
        .map(|i| {
            let at = 4 + 4 * i;
            Row {
                kind: bytes[at],
                a: bytes[at + 1],
                b: bytes[at + 2],
                c: bytes[at + 3],
                number: i32_at(bytes, 4 + 4 * n + 4 * i),
            }
        })
        .collect();
    let mut reader = Reader { rows, next: 0, known: Vec::new() };
    let mut rules = Vec::new();
    for _ in 0..r {
        rules.push(reader.property()?);
    }
    if reader.next < n {
        return Err(reader.next);
    }
    Ok((rules, 4 + 8 * n))
}

// ---------------------------------------------------------------- judging

#[derive(Clone, Copy)]
struct Origin {
    row: usize,
    place: usize,
    cause: u8,
}

/// The answer of a test (yes, no, open) and of a property (holds, fails, open).
#[derive(Clone, Copy)]
enum Answer {
    Yes,
    No,
    Open(Origin),
}

use Answer::{No, Open, Yes};

impl Answer {
    fn negate(self) -> Answer {
        match self {
            Yes => No,
            No => Yes,
            open => open,
        }
    }

    fn and(self, other: Answer) -> Answer {
        match (self, other) {
            (No, _) | (_, No) => No,
            (Yes, Yes) => Yes,
            (Open(origin), _) | (Yes, Open(origin)) => Open(origin),
        }
    }

    fn or(self, other: Answer) -> Answer {
        self.negate().and(other.negate()).negate()
    }
}

#[derive(Clone, Copy)]
enum Variable<'a> {
    Event(&'a Event),
    /// None: bound to an unread value.
    Number(Option<i32>),
}

struct Judge<'a> {
    log: &'a [Event],
    known: Vec<Variable<'a>>,
}

const NO_VALUE: u8 = 1;
const SEVERAL_VALUES: u8 = 2;
const UNREAD_VALUE: u8 = 3;
const OUT_OF_RANGE: u8 = 4;
const DIVISOR_ZERO: u8 = 5;

impl<'a> Judge<'a> {
    fn event(&self, variable: usize) -> &'a Event {
        match self.known[variable] {
            Variable::Event(event) => event,
            Variable::Number(_) => unreachable!("the sheet was inspected"),
        }
    }

    /// The term's value, or the row and cause of the term that lacks it by itself.
    fn term(&self, term: &Numbered) -> Result<i32, (usize, u8)> {
        let lacks = |cause| Err((term.row, cause));
        match &term.term {
            Term::Constant(number) => Ok(*number),
            Term::Time(variable) => Ok(self.event(*variable).time),
            Term::ValueOf(variable, code) => {
                let mut coded = self.event(*variable).values.iter().filter(|v| v.code == *code);
                match (coded.next(), coded.next()) {
                    (None, _) => lacks(NO_VALUE),
                    (Some(_), Some(_)) => lacks(SEVERAL_VALUES),
                    (Some(Value { number: None, .. }), None) => lacks(UNREAD_VALUE),
                    (Some(Value { number: Some(number), .. }), None) => Ok(*number),
                }
            }
            Term::Number(variable) => match self.known[*variable] {
                Variable::Number(Some(number)) => Ok(number),
                Variable::Number(None) => lacks(UNREAD_VALUE),
                Variable::Event(_) => unreachable!("the sheet was inspected"),
            },
            Term::Step(operation, left, right) => {
                let x = self.term(left)? as i64;
                let y = self.term(right)? as i64;
                let result = match operation {
                    Operation::Sum => x + y,
                    Operation::Difference => x - y,
                    Operation::Product => x * y,
                    Operation::Quotient if y == 0 => return lacks(DIVISOR_ZERO),
                    Operation::Quotient => x / y,
                };
                i32::try_from(result).or_else(|_| lacks(OUT_OF_RANGE))
            }
        }
    }

    fn test(&self, test: &Test, place: usize) -> Answer {
        match test {
            Test::True => Yes,
            Test::Not(t) => self.test(t, place).negate(),
            Test::And(t, u) => self.test(t, place).and(self.test(u, place)),
            Test::Or(t, u) => self.test(t, place).or(self.test(u, place)),
            Test::Compare(comparison, left, right) => {
                let sides = self.term(left).and_then(|x| self.term(right).map(|y| (x, y)));
                let (x, y) = match sides {
                    Ok(both) => both,
                    Err((row, cause)) => return Open(Origin { row, place, cause }),
                };
                let yes = match comparison {
                    Comparison::Equal => x == y,
                    Comparison::Less => x < y,
                    Comparison::AtMost => x <= y,
                };
                if yes {
                    Yes
                } else {
                    No
                }
            }
        }
    }

    /// The test of a row at a place.
    fn asked(&mut self, pattern: &Pattern, place: usize) -> Answer {
        let event = &self.log[place];
        if event.name != pattern.name {
            return No;
        }
        self.known.push(Variable::Event(event));
        let answer = self.test(&pattern.test, place);
        self.known.pop();
        answer
    }

    fn occurrence(&mut self, n: usize, pattern: &Pattern, (from, to): (usize, usize)) -> Answer {
        if n == 0 {
            return Yes;
        }
        let mut yes = 0;
        let mut open = 0;
        let mut first_open = None;
        for place in from..to {
            match self.asked(pattern, place) {
                Yes => yes += 1,
                No => {}
                Open(origin) => {
                    open += 1;
                    first_open = first_open.or(Some(origin));
                }
            }
            if yes == n {
                return Yes;
            }
        }
        match first_open {
            Some(origin) if yes + open >= n => Open(origin),
            _ => No,
        }
    }

    /// The possible delimiters of a window, rising, each with its test.
    fn possible(
        &mut self,
        which: Which,
        pattern: &Pattern,
        (from, to): (usize, usize),
    ) -> Vec<(usize, Answer)> {
        let mut places = Vec::new();
        for place in from..to {
            let answer = self.asked(pattern, place);
            match (which, answer) {
                (_, No) => {}
                (Which::First, Yes) => {
                    // up to the first yes, the yes included
                    places.push((place, answer));
                    break;
                }
                (Which::Last, Yes) => {
                    // from the last yes on: what stood before it is none
                    places.clear();
                    places.push((place, answer));
                }
                _ => places.push((place, answer)),
            }
        }
        places
    }

    /// The window that a scope judges at a delimiter.
    fn window_at(
        &self,
        scope: Scope,
        duration: i32,
        place: usize,
        (from, to): (usize, usize),
    ) -> (usize, usize) {
        let time = |i: usize| self.log[i].time as i64;
        let (t, d) = (time(place), duration as i64);
        match scope {
            Scope::Given => (from, to),
            Scope::After => {
                let mut end = to;
                if d > 0 {
                    end = place + 1;
                    while end < to && time(end) < t + d {
                        end += 1;
                    }
                }
                (place + 1, end)
            }
            Scope::Before => {
                let mut start = from;
                if d > 0 {
                    start = place;
                    while start > from && time(start - 1) > t - d {
                        start -= 1;
                    }
                }
                (start, place)
            }
        }
    }

    fn property(&mut self, property: &Property, window: (usize, usize)) -> Answer {
        match property {
            Property::Not(p) => self.property(p, window).negate(),
            Property::And(p, q) => match self.property(p, window) {
                No => No,
                first => first.and(self.property(q, window)),
            },
            Property::Or(p, q) => match self.property(p, window) {
                Yes => Yes,
                first => first.or(self.property(q, window)),
            },
            Property::Implies(p, q) => match self.property(p, window).negate() {
                Yes => Yes,
                first => first.or(self.property(q, window)),
            },
            Property::Occurrence(n, pattern) => self.occurrence(*n, pattern, window),
            Property::Absence(pattern) => self.occurrence(1, pattern, window).negate(),
            Property::Scoped { scope, which, duration, delimiter, inner } => {
                let places = self.possible(*which, delimiter, window);
                let lowest_open_test = places.iter().find_map(|(_, answer)| match answer {
                    Open(origin) => Some(*origin),
                    _ => None,
                });
                // What the lowest delimiter gives where P does not hold.
                let mut origin = None;
                for (place, answer) in &places {
                    let only = matches!(which, Which::Each) || places.len() == 1;
                    let certain = matches!(answer, Yes) && only;
                    let inner_window = self.window_at(*scope, *duration, *place, window);
                    self.known.push(Variable::Event(&self.log[*place]));
                    let verdict = self.property(inner, inner_window);
                    self.known.pop();
                    match verdict {
                        Yes => {}
                        No if certain => return No,
                        No => origin = origin.or(lowest_open_test),
                        Open(inner_origin) => origin = origin.or(Some(inner_origin)),
                    }
                }
                origin.map_or(Yes, Open)
            }
            Property::Forall(variable, code, inner) => {
                let mut all = Yes;
                for value in self.event(*variable).values.iter().filter(|v| v.code == *code) {
                    all = all.and(self.with_number(value.number, inner, window));
                }
                all
            }
            Property::Exists(variable, code, inner) => {
                let mut any = No;
                for value in self.event(*variable).values.iter().filter(|v| v.code == *code) {
                    any = any.or(self.with_number(value.number, inner, window));
                }
                any
            }
        }
    }

    fn with_number(
        &mut self,
        number: Option<i32>,
        inner: &Property,
        window: (usize, usize),
    ) -> Answer {
        self.known.push(Variable::Number(number));
        let verdict = self.property(inner, window);
        self.known.pop();
        verdict
    }
}

// ---------------------------------------------------------------- the program

fn answer_to(input: &[u8]) -> String {
    if input.len() > MOST_BYTES {
        return "refused 13\n".to_string();
    }
    let (rules, used) = match read_sheet(input) {
        Ok(read) => read,
        Err(row) => return format!("refused 6 {row}\n"),
    };
    let log = match read_image(&input[used..]) {
        Ok(log) => log,
        Err(event) => return format!("refused 12 {event}\n"),
    };
    let mut lines = String::new();
    for (number, rule) in rules.iter().enumerate() {
        let mut judge = Judge { log: &log, known: Vec::new() };
        lines += &match judge.property(rule, (0, log.len())) {
            Yes => format!("{number} holds\n"),
            No => format!("{number} fails\n"),
            Open(Origin { row, place, cause }) => format!("{number} open {row} {place} {cause}\n"),
        };
    }
    lines
}

fn main() -> io::Result<()> {
    let mut input = Vec::new();
    io::stdin().lock().take(MOST_BYTES as u64 + 1).read_to_end(&mut input)?;
    io::stdout().write_all(answer_to(&input).as_bytes())
}
