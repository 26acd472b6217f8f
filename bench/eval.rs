// Evaluation in plain Rust, column by column as `vx_eval` does it: values, and a byte a row that marks nulls
// and faults. Goes over the table of `vx_eval_rounds` and prints what it prints.
use std::hint::black_box;

const ROWS: usize = 16_384;

const FINE: u8 = 0;
const NULL: u8 = 1;
const OVERFLOW: u8 = 2;
const DIVIDE_BY_ZERO: u8 = 3;
const TOO_LONG: u8 = 4;

const WORDS: [&str; 8] = ["", "a", "of", "word", "vector", "columns", "batches of", "evaluations"];

struct Ints {
    values: Vec<i64>,
    marks: Vec<u8>,
}

struct Bools {
    values: Vec<bool>,
    marks: Vec<u8>,
}

#[derive(Default)]
struct Texts {
    bytes: Vec<u8>,
    places: Vec<(u32, u32)>,
    marks: Vec<u8>,
}

impl Texts {
    fn with_capacity(rows: usize, bytes: usize) -> Texts {
        Texts {
            bytes: Vec::with_capacity(bytes),
            places: Vec::with_capacity(rows),
            marks: Vec::with_capacity(rows),
        }
    }

    fn get(&self, row: usize) -> &[u8] {
        let (start, end) = self.places[row];
        &self.bytes[start as usize..end as usize]
    }
}

/// A fault of the left side, else of the right, else null where a side is null.
#[inline(always)]
fn strictest(left: u8, right: u8) -> u8 {
    if left >= 2 || left > right { left } else { right }
}

#[inline(always)]
fn marked(before: u8, own: u8) -> u8 {
    if before == FINE { own } else { before }
}

fn ints(a: &Ints, b: &Ints, f: impl Fn(i64, i64) -> (i64, u8)) -> Ints {
    let rows = a.marks.len();
    let (x, y) = (&a.values[..rows], &b.values[..rows]);
    let (left, right) = (&a.marks[..rows], &b.marks[..rows]);
    let (mut values, mut marks) = (vec![0; rows], vec![0; rows]);
    for row in 0..rows {
        let (value, own) = f(x[row], y[row]);
        values[row] = value;
        marks[row] = marked(strictest(left[row], right[row]), own);
    }
    Ints { values, marks }
}

/// The sums and the marks in loops of their own; an overflow is looked for by rows only where there is one.
fn plus(a: &Ints, b: &Ints) -> Ints {
    let mut signs = 0;
    let add = |(x, y): (&i64, &i64)| {
        let sum = x.wrapping_add(*y);
        signs |= over(*x, *y, sum);
        sum
    };
    let values: Vec<i64> = a.values.iter().zip(&b.values).map(add).collect();
    let mut marks = strict_marks(&a.marks, &b.marks);
    if signs < 0 {
        for row in 0..marks.len() {
            if over(a.values[row], b.values[row], values[row]) < 0 {
                marks[row] = marked(marks[row], OVERFLOW);
            }
        }
    }
    Ints { values, marks }
}

/// Less than 0 where a sum overflows: its sign is neither side's.
#[inline(always)]
fn over(x: i64, y: i64, sum: i64) -> i64 {
    (x ^ sum) & (y ^ sum)
}

fn strict_marks(left: &[u8], right: &[u8]) -> Vec<u8> {
    left.iter().zip(right).map(|(l, r)| strictest(*l, *r)).collect()
}

fn divide(x: i64, y: i64) -> (i64, u8) {
    match x.checked_div(y) {
        Some(value) => (value, FINE),
        None => (0, if y == 0 { DIVIDE_BY_ZERO } else { OVERFLOW }),
    }
}

fn less(a: &Ints, b: &Ints) -> Bools {
    Bools {
        values: a.values.iter().zip(&b.values).map(|(x, y)| x < y).collect(),
        marks: strict_marks(&a.marks, &b.marks),
    }
}

fn above(a: &Ints, limit: i64) -> Bools {
    Bools {
        values: a.values.iter().map(|x| *x > limit).collect(),
        marks: a.marks.clone(),
    }
}

fn and(a: &Bools, b: &Bools) -> Bools {
    let rows = a.marks.len();
    let (x, y) = (&a.values[..rows], &b.values[..rows]);
    let (left, right) = (&a.marks[..rows], &b.marks[..rows]);
    let (mut values, mut marks) = (vec![false; rows], vec![0; rows]);
    for row in 0..rows {
        let is_false = (!x[row] & (left[row] == FINE)) | (!y[row] & (right[row] == FINE));
        values[row] = !is_false;
        marks[row] = if is_false { FINE } else { strictest(left[row], right[row]) };
    }
    Bools { values, marks }
}

fn concat(a: &Texts, b: &Texts) -> Texts {
    let rows = a.marks.len();
    let mut all = Texts::with_capacity(rows, a.bytes.len() + b.bytes.len());
    for row in 0..rows {
        let (left, right) = (a.get(row), b.get(row));
        let own = if left.len() + right.len() > 65_535 { TOO_LONG } else { FINE };
        let mark = marked(strictest(a.marks[row], b.marks[row]), own);
        let start = all.bytes.len() as u32;
        if mark == FINE {
            all.bytes.extend_from_slice(left);
            all.bytes.extend_from_slice(right);
        }
        all.places.push((start, all.bytes.len() as u32));
        all.marks.push(mark);
    }
    all
}

fn tried(mut a: Ints) -> Ints {
    for mark in &mut a.marks {
        *mark = (*mark).min(NULL);
    }
    a
}

struct Draws(u64);

impl Draws {
    fn below(&mut self, bound: u32) -> u32 {
        self.0 = self.0.wrapping_mul(6_364_136_223_846_793_005).wrapping_add(1);
        ((self.0 >> 33) % u64::from(bound)) as u32
    }

    fn mark(&mut self) -> u8 {
        if self.below(16) == 0 { NULL } else { FINE }
    }

    fn ints(&mut self, rows: usize, top: u16) -> Ints {
        Ints {
            values: (0..rows).map(|_| i64::from(self.below(2 * u32::from(top) + 1)) - i64::from(top)).collect(),
            marks: (0..rows).map(|_| self.mark()).collect(),
        }
    }

    fn texts(&mut self, rows: usize) -> Texts {
        let mut texts = Texts::default();
        for _ in 0..rows {
            let start = texts.bytes.len() as u32;
            texts.bytes.extend_from_slice(WORDS[self.below(8) as usize].as_bytes());
            texts.places.push((start, texts.bytes.len() as u32));
            texts.marks.push(self.mark());
        }
        texts
    }
}

struct Part {
    a: Ints,
    b: Ints,
    d: Ints,
    s: Texts,
    t: Texts,
}

enum Column {
    Bools(Bools),
    Ints(Ints),
    Texts(Texts),
}

impl Column {
    fn marks(&self) -> &[u8] {
        match self {
            Column::Bools(bools) => &bools.marks,
            Column::Ints(ints) => &ints.marks,
            Column::Texts(texts) => &texts.marks,
        }
    }

    fn weight(&self, row: usize) -> i64 {
        match self {
            Column::Bools(bools) => i64::from(bools.values[row]),
            Column::Ints(ints) => ints.values[row],
            Column::Texts(texts) => texts.get(row).len() as i64,
        }
    }
}

fn evaluated(name: &str, part: &Part) -> Column {
    match name {
        "plus" | "kernel_plus" => Column::Ints(plus(&part.a, &part.b)),
        "lt" | "kernel_lt" => Column::Bools(less(&part.a, &part.b)),
        "and" => Column::Bools(and(&less(&part.a, &part.b), &above(&part.d, 0))),
        "concat" => Column::Texts(concat(&part.s, &part.t)),
        "try" => Column::Ints(tried(ints(&part.a, &part.d, divide))),
        _ => panic!("no expression"),
    }
}

fn main() {
    let words: Vec<String> = std::env::args().collect();
    let name = words[1].as_str();
    let size: usize = words[2].parse().expect("a size of a batch");
    let turns: u64 = words[3].parse().expect("a number of turns");
    let mut draws = Draws(1);
    let parts: Vec<Part> = (0..ROWS / size)
        .map(|_| Part {
            a: draws.ints(size, 1_000),
            b: draws.ints(size, 1_000),
            d: draws.ints(size, 16),
            s: draws.texts(size),
            t: draws.texts(size),
        })
        .collect();
    let (mut values, mut nulls, mut faults, mut sum) = (0, 0, 0, 0);
    for part in &parts {
        let column = evaluated(name, part);
        for (row, mark) in column.marks().iter().enumerate() {
            match *mark {
                FINE => {
                    values += 1;
                    sum += column.weight(row);
                }
                NULL => nulls += 1,
                _ => faults += 1,
            }
        }
    }
    let mut rows = 0;
    for _ in 0..turns {
        for part in &parts {
            rows += black_box(evaluated(name, black_box(part))).marks().len();
        }
    }
    println!("{name}: {values} values, {nulls} nulls, {faults} faults, sum {sum}; {rows} rows");
}
