// Pages in plain Rust, as `vx_page` has them: reads a page of 150 rows of two ints and a text, writes the
// rows again, and prints how many rows and bytes that were.
enum Value {
    Null,
    Bool(bool),
    Int(i64),
    Text(String),
}

enum Cell {
    Flag(bool),
    Value(Value),
    Wide(i128),
}

#[derive(Clone, Copy)]
enum Kind {
    Bool,
    Int,
    Text,
}

#[derive(Clone, Copy)]
enum Slot {
    Flag,
    Value(Kind),
    Wide,
}

fn write_page(rows: &[Vec<Cell>]) -> Vec<u8> {
    let size: usize = rows.iter().flatten().map(len).sum();
    let mut bytes = Vec::with_capacity(8 + size);
    bytes.extend_from_slice(&(rows.len() as u32).to_be_bytes());
    bytes.extend_from_slice(&(size as u32).to_be_bytes());
    for cell in rows.iter().flatten() {
        push(&mut bytes, cell);
    }
    bytes
}

fn len(cell: &Cell) -> usize {
    match cell {
        Cell::Flag(_) | Cell::Value(Value::Null) => 1,
        Cell::Value(Value::Bool(_)) => 2,
        Cell::Value(Value::Int(_)) => 9,
        Cell::Value(Value::Text(text)) => 3 + text.len(),
        Cell::Wide(_) => 17,
    }
}

fn push(bytes: &mut Vec<u8>, cell: &Cell) {
    match cell {
        Cell::Flag(b) => bytes.push(u8::from(*b)),
        Cell::Value(Value::Null) => bytes.push(0),
        Cell::Value(Value::Bool(b)) => bytes.extend_from_slice(&[1, u8::from(*b)]),
        Cell::Value(Value::Int(n)) => {
            bytes.push(2);
            bytes.extend_from_slice(&n.to_be_bytes());
        }
        Cell::Value(Value::Text(text)) => {
            bytes.push(3);
            bytes.extend_from_slice(&(text.len() as u16).to_be_bytes());
            bytes.extend_from_slice(text.as_bytes());
        }
        Cell::Wide(n) => {
            bytes.push(4);
            bytes.extend_from_slice(&n.to_be_bytes());
        }
    }
}

fn part<'a>(rest: &mut &'a [u8], count: usize) -> Option<&'a [u8]> {
    if rest.len() < count {
        return None;
    }
    let (front, back) = rest.split_at(count);
    *rest = back;
    Some(front)
}

fn bool_at(rest: &mut &[u8]) -> Option<bool> {
    match part(rest, 1)?[0] {
        0 => Some(false),
        1 => Some(true),
        _ => None,
    }
}

fn value_at(kind: Kind, rest: &mut &[u8]) -> Option<Value> {
    match (part(rest, 1)?[0], kind) {
        (0, _) => Some(Value::Null),
        (1, Kind::Bool) => Some(Value::Bool(bool_at(rest)?)),
        (2, Kind::Int) => Some(Value::Int(i64::from_be_bytes(part(rest, 8)?.try_into().ok()?))),
        (3, Kind::Text) => {
            let count = u16::from_be_bytes(part(rest, 2)?.try_into().ok()?);
            let text = std::str::from_utf8(part(rest, usize::from(count))?).ok()?;
            Some(Value::Text(text.to_owned()))
        }
        _ => None,
    }
}

fn cell_at(slot: Slot, rest: &mut &[u8]) -> Option<Cell> {
    match slot {
        Slot::Flag => Some(Cell::Flag(bool_at(rest)?)),
        Slot::Value(kind) => Some(Cell::Value(value_at(kind, rest)?)),
        Slot::Wide => {
            if part(rest, 1)?[0] != 4 {
                return None;
            }
            Some(Cell::Wide(i128::from_be_bytes(part(rest, 16)?.try_into().ok()?)))
        }
    }
}

fn read_page(bytes: &[u8], shape: &[Slot]) -> Option<Vec<Vec<Cell>>> {
    let mut rest = bytes;
    let count = u32::from_be_bytes(part(&mut rest, 4)?.try_into().ok()?) as usize;
    let size = u32::from_be_bytes(part(&mut rest, 4)?.try_into().ok()?) as usize;
    if size != rest.len() {
        return None;
    }
    let mut rows = Vec::with_capacity(count.min(rest.len()));
    for _ in 0..count {
        let mut cells = Vec::with_capacity(shape.len());
        for slot in shape {
            cells.push(cell_at(*slot, &mut rest)?);
        }
        rows.push(cells);
    }
    if rest.is_empty() { Some(rows) } else { None }
}

fn main() {
    let count: u64 = std::env::args().nth(1).and_then(|word| word.parse().ok()).expect("a number of pages");
    let shape = [Slot::Value(Kind::Int), Slot::Value(Kind::Int), Slot::Value(Kind::Text), Slot::Flag, Slot::Wide, Slot::Value(Kind::Bool)];
    let shape = &shape[..3];
    let rows: Vec<Vec<Cell>> = (0..150)
        .map(|row| vec![Cell::Value(Value::Int(row)), Cell::Value(Value::Int(1000 + row)), Cell::Value(Value::Text("a text..".to_owned()))])
        .collect();
    let mut page = write_page(&rows);
    let (mut rows, mut bytes) = (0, 0);
    for _ in 0..count {
        let read = read_page(&page, shape).expect("a page");
        page = write_page(&read);
        rows += read.len();
        bytes += page.len();
    }
    println!("rows {rows} bytes {bytes}");
}
