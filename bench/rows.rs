// Rows in memory in plain Rust, laid out as `vx_rows` has them: 8 bytes of head, null bits, slots, texts of more
// than 12 bytes in chains of blocks. Fills a container with a million rows so many times, reads all rows so many
// times, compares all keys so many times, and prints what it met.
use std::env;

const CHUNK: usize = 4_096;
const ROWS: u32 = 1_000_000;
const BATCH: u32 = 1_000;
const NONE: u64 = u64::MAX;
const CLASSES: [u32; 8] = [16, 32, 64, 128, 256, 512, 1_024, 2_048];

#[derive(Clone, Copy)]
enum Kind {
    Int,
    Text,
}

enum Value {
    Null,
    Int(i64),
    Text(Box<[u8]>),
}

#[derive(Clone, Copy)]
enum ValueRef<'a> {
    Null,
    Int(i64),
    Text(&'a [u8]),
}

enum Column {
    Ints(Vec<i64>, Vec<u8>),
    Texts(Vec<u8>, Vec<(u32, u32, u8)>),
}

impl Column {
    fn get(&self, row: u32) -> ValueRef<'_> {
        let row = row as usize;
        match self {
            Column::Ints(values, marks) if marks[row] == 0 => ValueRef::Int(values[row]),
            Column::Texts(bytes, places) if places[row].2 == 0 => {
                ValueRef::Text(&bytes[places[row].0 as usize..places[row].1 as usize])
            }
            _ => ValueRef::Null,
        }
    }
}

fn word(bytes: &[u8], at: usize) -> u32 {
    u32::from_le_bytes(bytes[at..at + 4].try_into().unwrap())
}

fn long(bytes: &[u8], at: usize) -> u64 {
    u64::from_le_bytes(bytes[at..at + 8].try_into().unwrap())
}

/// Texts in chains of blocks, with a list of free blocks for each class.
struct Arena {
    chunks: Vec<Box<[u8]>>,
    heads: [u64; 8],
    taken: u64,
    given: u64,
}

fn least_class(len: u32) -> usize {
    CLASSES.iter().position(|class| len <= *class).unwrap()
}

fn greatest_class(len: u32) -> usize {
    CLASSES.iter().rposition(|class| *class <= len).unwrap()
}

fn place(name: u64) -> (usize, usize) {
    ((name & 0xffff_ffff) as usize, (name >> 32) as usize)
}

impl Arena {
    fn new() -> Arena {
        Arena { chunks: Vec::new(), heads: [NONE; 8], taken: 0, given: 0 }
    }

    fn bytes(&self, name: u64) -> &[u8] {
        let (chunk, at) = place(name);
        &self.chunks[chunk][at..]
    }

    fn bytes_mut(&mut self, name: u64) -> &mut [u8] {
        let (chunk, at) = place(name);
        &mut self.chunks[chunk][at..]
    }

    fn set_before(&mut self, name: u64, before: u64) {
        if name != NONE {
            self.bytes_mut(name)[16..24].copy_from_slice(&before.to_le_bytes());
        }
    }

    fn pop(&mut self, class: usize) -> Option<u64> {
        let name = self.heads[class];
        if name == NONE {
            return None;
        }
        let after = long(self.bytes(name), 8);
        self.bytes_mut(name)[4] = 1;
        self.set_before(after, NONE);
        self.heads[class] = after;
        Some(name)
    }

    fn push(&mut self, name: u64) {
        let class = greatest_class(word(self.bytes(name), 0));
        let after = self.heads[class];
        let block = self.bytes_mut(name);
        block[4] = 0;
        block[8..16].copy_from_slice(&after.to_le_bytes());
        block[16..24].copy_from_slice(&NONE.to_le_bytes());
        self.set_before(after, name);
        self.heads[class] = name;
    }

    fn grow(&mut self) -> u64 {
        let mut chunk = vec![0; CHUNK].into_boxed_slice();
        chunk[..4].copy_from_slice(&4_088u32.to_le_bytes());
        chunk[4] = 1;
        self.chunks.push(chunk);
        self.chunks.len() as u64 - 1
    }

    fn take(&mut self, part: &[u8], next: u64) -> u64 {
        let class = least_class(8 + part.len() as u32);
        let found = (class..8).find_map(|class| self.pop(class));
        let name = found.unwrap_or_else(|| self.grow());
        let (len, most) = (word(self.bytes(name), 0), CLASSES[class]);
        if len >= most + 24 {
            let rest = name + (u64::from(most + 8) << 32);
            self.bytes_mut(rest)[..4].copy_from_slice(&(len - most - 8).to_le_bytes());
            self.push(rest);
            self.bytes_mut(name)[..4].copy_from_slice(&most.to_le_bytes());
        }
        let block = self.bytes_mut(name);
        block[8..16].copy_from_slice(&next.to_le_bytes());
        block[16..16 + part.len()].copy_from_slice(part);
        self.taken += 1;
        name
    }

    fn take_text(&mut self, text: &[u8]) -> u64 {
        text.chunks(2_040).rev().fold(NONE, |next, part| self.take(part, next))
    }

    fn give_text(&mut self, first: u64) {
        let mut name = first;
        while name != NONE {
            let next = long(self.bytes(name), 8);
            self.push(name);
            self.given += 1;
            name = next;
        }
    }

    fn parts(&self, first: u64, len: usize) -> impl Iterator<Item = &[u8]> {
        let (mut name, mut due) = (first, len);
        std::iter::from_fn(move || {
            if due == 0 {
                return None;
            }
            let block = self.bytes(name);
            let count = due.min(2_040);
            due -= count;
            name = long(block, 8);
            Some(&block[16..16 + count])
        })
    }

    fn equals(&self, first: u64, text: &[u8]) -> bool {
        let mut rest = text;
        for part in self.parts(first, text.len()) {
            let (front, back) = rest.split_at(part.len());
            if front != part {
                return false;
            }
            rest = back;
        }
        true
    }
}

/// Rows of one length, by number.
struct Container {
    kinds: Vec<Kind>,
    places: Vec<usize>,
    bytes: usize,
    chunks: Vec<Box<[u8]>>,
    made: u32,
    free: u32,
    arena: Arena,
    scratch: Vec<u8>,
}

impl Container {
    fn new(kinds: &[Kind]) -> Container {
        let mut at = 8 + 8 * kinds.len().div_ceil(64);
        let mut places = Vec::new();
        for kind in kinds {
            places.push(at);
            at += match kind {
                Kind::Int => 8,
                Kind::Text => 16,
            };
        }
        Container {
            kinds: kinds.to_vec(),
            places,
            bytes: at,
            chunks: Vec::new(),
            made: 0,
            free: 0,
            arena: Arena::new(),
            scratch: vec![0; at],
        }
    }

    fn row(&self, number: u32) -> &[u8] {
        let a_chunk = (CHUNK / self.bytes) as u32;
        let start = (number % a_chunk) as usize * self.bytes;
        &self.chunks[(number / a_chunk) as usize][start..start + self.bytes]
    }

    fn row_mut(&mut self, number: u32) -> &mut [u8] {
        let a_chunk = (CHUNK / self.bytes) as u32;
        let start = (number % a_chunk) as usize * self.bytes;
        &mut self.chunks[(number / a_chunk) as usize][start..start + self.bytes]
    }

    fn number(&mut self) -> u32 {
        if self.free != 0 {
            let number = self.free - 1;
            self.free = word(self.row(number), 0);
            return number;
        }
        if self.made as usize % (CHUNK / self.bytes) == 0 {
            self.chunks.push(vec![0; CHUNK].into_boxed_slice());
        }
        self.made += 1;
        self.made - 1
    }

    fn add(&mut self, columns: &[Column], at: u32) -> u32 {
        let mut scratch = std::mem::take(&mut self.scratch);
        scratch.fill(0);
        scratch[4] = 1;
        for (which, column) in columns.iter().enumerate() {
            let place = self.places[which];
            match column.get(at) {
                ValueRef::Null => scratch[8 + which / 8] |= 1 << (which % 8),
                ValueRef::Int(n) => scratch[place..place + 8].copy_from_slice(&n.to_le_bytes()),
                ValueRef::Text(text) => {
                    let slot = &mut scratch[place..place + 16];
                    slot[..4].copy_from_slice(&(text.len() as u32).to_le_bytes());
                    if text.len() <= 12 {
                        slot[4..4 + text.len()].copy_from_slice(text);
                    } else {
                        let name = self.arena.take_text(text);
                        slot[4..8].copy_from_slice(&text[..4]);
                        slot[8..16].copy_from_slice(&name.to_le_bytes());
                    }
                }
            }
        }
        let number = self.number();
        self.row_mut(number).copy_from_slice(&scratch);
        self.scratch = scratch;
        number
    }

    fn get(&self, number: u32) -> Vec<Value> {
        let row = self.row(number);
        let mut cells = Vec::with_capacity(self.kinds.len());
        for (which, kind) in self.kinds.iter().enumerate() {
            let place = self.places[which];
            cells.push(if row[8 + which / 8] >> (which % 8) & 1 == 1 {
                Value::Null
            } else {
                match kind {
                    Kind::Int => Value::Int(long(row, place) as i64),
                    Kind::Text => Value::Text(self.text(&row[place..place + 16])),
                }
            });
        }
        cells
    }

    fn text(&self, slot: &[u8]) -> Box<[u8]> {
        let len = word(slot, 0) as usize;
        if len <= 12 {
            return slot[4..4 + len].into();
        }
        let mut text = Vec::with_capacity(len);
        for part in self.arena.parts(long(slot, 8), len) {
            text.extend_from_slice(part);
        }
        text.into_boxed_slice()
    }

    fn key_equals(&self, number: u32, keys: &[u32], columns: &[Column], at: u32, of: &[u32]) -> bool {
        let row = self.row(number);
        keys.iter().zip(of).all(|(key, of)| {
            let (which, place) = (*key as usize, self.places[*key as usize]);
            let null = row[8 + which / 8] >> (which % 8) & 1 == 1;
            match columns[*of as usize].get(at) {
                ValueRef::Null => null,
                ValueRef::Int(n) => !null && long(row, place) as i64 == n,
                ValueRef::Text(text) => !null && self.is_text(&row[place..place + 16], text),
            }
        })
    }

    fn is_text(&self, slot: &[u8], text: &[u8]) -> bool {
        if word(slot, 0) as usize != text.len() {
            return false;
        }
        if text.len() <= 12 {
            return slot[4..4 + text.len()] == *text;
        }
        slot[4..8] == text[..4] && self.arena.equals(long(slot, 8), text)
    }

    fn erase(&mut self, number: u32) {
        for which in 0..self.kinds.len() {
            let (row, place) = (self.row(number), self.places[which]);
            let null = row[8 + which / 8] >> (which % 8) & 1 == 1;
            if matches!(self.kinds[which], Kind::Text) && !null && word(row, place) > 12 {
                let name = long(row, place + 8);
                self.arena.give_text(name);
            }
        }
        let next = self.free;
        let row = self.row_mut(number);
        row[..4].copy_from_slice(&next.to_le_bytes());
        row[4] = 0;
        self.free = number + 1;
    }

    fn clear(&mut self) {
        self.chunks.clear();
        (self.made, self.free) = (0, 0);
        self.arena = Arena { given: self.arena.taken, taken: self.arena.taken, ..Arena::new() };
    }
}

fn ints(from: i64) -> Column {
    Column::Ints((0..i64::from(BATCH)).map(|n| from + n).collect(), vec![0; BATCH as usize])
}

fn texts() -> Column {
    let (mut bytes, mut places) = (Vec::new(), Vec::new());
    for n in 0..BATCH {
        let start = bytes.len() as u32;
        bytes.extend_from_slice(format!("a text of bytes {:04}", n).as_bytes());
        places.push((start, bytes.len() as u32, 0));
    }
    Column::Texts(bytes, places)
}

fn tally(cells: &[Value]) -> u64 {
    cells.iter().fold(0, |sum, cell| match cell {
        Value::Null => sum + 1,
        Value::Int(n) => sum + *n as u64,
        Value::Text(text) => sum + text.len() as u64,
    })
}

fn add_all(container: &mut Container, numbers: &mut Vec<u32>, columns: &[Column]) {
    for at in 0..ROWS {
        numbers.push(container.add(columns, at % BATCH));
    }
}

fn main() {
    let words: Vec<String> = env::args().collect();
    let counts: Vec<u32> = words[2..].iter().map(|word| word.parse().unwrap()).collect();
    let (kinds, columns) = match words[1].as_str() {
        "ints" => ([Kind::Int, Kind::Int], [ints(0), ints(1_000)]),
        _ => ([Kind::Int, Kind::Text], [ints(0), texts()]),
    };
    let mut container = Container::new(&kinds);
    let mut numbers = Vec::new();
    for _ in 0..counts[0] {
        numbers.clear();
        container.clear();
        add_all(&mut container, &mut numbers, &columns);
    }
    let mut sum = 0u64;
    for _ in 0..counts[1] {
        for number in &numbers {
            sum = sum.wrapping_add(tally(&container.get(*number)));
        }
    }
    let mut equal = 0u64;
    for _ in 0..counts[2] {
        for (at, number) in numbers.iter().enumerate() {
            let row = (at % BATCH as usize) as u32;
            equal += u64::from(container.key_equals(*number, &[0, 1], &columns, row, &[0, 1]));
        }
    }
    for _ in 0..counts[3] {
        while let Some(number) = numbers.pop() {
            container.erase(number);
        }
        add_all(&mut container, &mut numbers, &columns);
    }
    println!("sum {sum} equal {equal} taken {} given {}", container.arena.taken, container.arena.given);
}
