//! The command `solo` in plain Rust, to be timed beside the proved program: the same files in, the same file and line out.
//!
//!     rustc -O solo_plain.rs
//!     solo_plain GRID START OUT STEPS [faces]
//!
//! It takes the flows of each cell through its four sides, as the definition says. With the word `faces` it takes the flow
//! between two cells once for both.

use std::process::ExitCode;
use std::{env, fs};

const MOST_CELLS: u64 = 1 << 18;
const MOST_AREA: u64 = 1 << 40;
const MOST_TOTAL: i128 = (1 << 62) - 1;

#[derive(Clone, Copy)]
struct Tile {
    nx: usize,
    ny: usize,
    /// The number of its first cell.
    first: usize,
}

#[derive(Clone, Copy)]
enum Side {
    W,
    E,
    S,
    N,
}

#[derive(Clone, Copy)]
struct Span {
    tile: usize,
    side: Side,
    lo: usize,
    hi: usize,
}

struct Contact {
    first: Span,
    second: Span,
    flip: bool,
}

struct Grid {
    tiles: Vec<Tile>,
    contacts: Vec<Contact>,
    area: Vec<i64>,
}

/// Bytes that are read from the front, line by line.
struct Reader<'a> {
    rest: &'a [u8],
    line: u32,
}

impl<'a> Reader<'a> {
    fn syntax<T>(&self) -> Result<T, String> {
        Err(format!("grid: Syntax {}", self.line))
    }

    fn limit<T>(&self) -> Result<T, String> {
        Err(format!("grid: Limit {}", self.line))
    }

    fn word(&mut self, word: &str) -> Result<(), String> {
        match self.rest.strip_prefix(word.as_bytes()) {
            Some(rest) => self.rest = rest,
            None => return self.syntax(),
        }
        Ok(())
    }

    fn line_feed(&mut self) -> Result<(), String> {
        self.word("\n")?;
        self.line += 1;
        Ok(())
    }

    /// A blank, and `0` or 1 to 19 digits without a leading zero.
    fn field(&mut self) -> Result<u64, String> {
        self.word(" ")?;
        let count = self.rest.iter().take_while(|c| c.is_ascii_digit()).count();
        let (digits, rest) = self.rest.split_at(count);
        if count == 0 || count > 19 || (count > 1 && digits[0] == b'0') {
            return self.syntax();
        }
        self.rest = rest;
        Ok(digits.iter().fold(0, |n, c| 10 * n + u64::from(c - b'0')))
    }

    fn side(&mut self) -> Result<Side, String> {
        self.word(" ")?;
        let (side, rest) = match self.rest {
            [b'W', rest @ ..] => (Side::W, rest),
            [b'E', rest @ ..] => (Side::E, rest),
            [b'S', rest @ ..] => (Side::S, rest),
            [b'N', rest @ ..] => (Side::N, rest),
            _ => return self.syntax(),
        };
        self.rest = rest;
        Ok(side)
    }
}

fn read_tile(reader: &mut Reader, area: &mut Vec<i64>) -> Result<Tile, String> {
    reader.word("tile")?;
    let (nx, ny) = (reader.field()?, reader.field()?);
    if reader.rest.first() != Some(&b'\n') {
        return reader.syntax();
    }
    let sides = 1..=1024;
    if !sides.contains(&nx) || !sides.contains(&ny) || area.len() as u64 + nx * ny > MOST_CELLS {
        return reader.limit();
    }
    reader.line_feed()?;
    let first = area.len();
    for _ in 0..ny {
        reader.word("area")?;
        let mut within = true;
        for _ in 0..nx {
            let number = reader.field()?;
            within &= number <= MOST_AREA;
            area.push(number as i64);
        }
        if reader.rest.first() != Some(&b'\n') {
            return reader.syntax();
        }
        if !within {
            return reader.limit();
        }
        reader.line_feed()?;
    }
    Ok(Tile { nx: nx as usize, ny: ny as usize, first })
}

fn read_contact(reader: &mut Reader) -> Result<Contact, String> {
    reader.word("contact")?;
    let mut spans = [(0, Side::W, 0, 0); 2];
    for span in &mut spans {
        *span = (reader.field()?, reader.side()?, reader.field()?, reader.field()?);
    }
    let flip = reader.field()?;
    if flip > 1 || reader.rest.first() != Some(&b'\n') {
        return reader.syntax();
    }
    if spans.iter().any(|&(tile, _, lo, hi)| tile.max(lo).max(hi) > 65_535) {
        return reader.limit();
    }
    reader.line_feed()?;
    let [first, second] = spans.map(|(tile, side, lo, hi)| Span {
        tile: tile as usize,
        side,
        lo: lo as usize,
        hi: hi as usize,
    });
    Ok(Contact { first, second, flip: flip == 1 })
}

fn read_grid(bytes: &[u8]) -> Result<Grid, String> {
    let mut reader = Reader { rest: bytes, line: 1 };
    reader.word("grid 1 air")?;
    reader.line_feed()?;
    reader.word("mosaic atmos")?;
    let count = reader.field()?;
    if reader.rest.first() == Some(&b'\n') && !(1..=16).contains(&count) {
        return reader.limit();
    }
    reader.line_feed()?;
    let (mut tiles, mut contacts, mut area) = (Vec::new(), Vec::new(), Vec::new());
    for _ in 0..count {
        tiles.push(read_tile(&mut reader, &mut area)?);
    }
    reader.word("contacts")?;
    let count = reader.field()?;
    if reader.rest.first() == Some(&b'\n') && count > 256 {
        return reader.limit();
    }
    reader.line_feed()?;
    for _ in 0..count {
        contacts.push(read_contact(&mut reader)?);
    }
    reader.word("end")?;
    reader.line_feed()?;
    if !reader.rest.is_empty() {
        return reader.syntax();
    }
    if let Some(cell) = area.iter().position(|&a| a == 0) {
        return Err(format!("grid: Area atmos {cell}"));
    }
    Ok(Grid { tiles, contacts, area })
}

fn is_within(tiles: &[Tile], span: &Span) -> bool {
    let Some(tile) = tiles.get(span.tile) else {
        return false;
    };
    let most = match span.side {
        Side::W | Side::E => tile.ny,
        Side::S | Side::N => tile.nx,
    };
    span.lo <= span.hi && span.hi < most
}

/// The cell and the side at the k-th place of a span.
fn place(tiles: &[Tile], span: &Span, k: usize) -> (usize, usize) {
    let tile = tiles[span.tile];
    let (i, j) = match span.side {
        Side::W => (0, k),
        Side::E => (tile.nx - 1, k),
        Side::S => (k, 0),
        Side::N => (k, tile.ny - 1),
    };
    (tile.first + j * tile.nx + i, span.side as usize)
}

/// The cells behind the four sides of each cell: west, east, south, north. At a wall it is the cell itself.
fn neighbours(grid: &Grid) -> Result<Vec<[u32; 4]>, String> {
    let mut table = Vec::with_capacity(grid.area.len());
    for tile in &grid.tiles {
        for j in 0..tile.ny {
            for i in 0..tile.nx {
                let n = (tile.first + j * tile.nx + i) as u32;
                table.push([
                    if i > 0 { n - 1 } else { n },
                    if i + 1 < tile.nx { n + 1 } else { n },
                    if j > 0 { n - tile.nx as u32 } else { n },
                    if j + 1 < tile.ny { n + tile.nx as u32 } else { n },
                ]);
            }
        }
    }
    for (n, contact) in grid.contacts.iter().enumerate() {
        let Contact { first, second, .. } = contact;
        let fit = is_within(&grid.tiles, first) && is_within(&grid.tiles, second);
        if !fit || first.hi - first.lo != second.hi - second.lo {
            return Err(format!("grid: ContactRange atmos {n}"));
        }
    }
    // Which side each side is joined to.
    let mut joined = std::collections::HashMap::new();
    let mut meets_itself = None;
    for (n, contact) in grid.contacts.iter().enumerate() {
        let mut own = std::collections::HashMap::new();
        for k in 0..=contact.first.hi - contact.first.lo {
            let other = if contact.flip { contact.second.hi - k } else { contact.second.lo + k };
            let p = place(&grid.tiles, &contact.first, contact.first.lo + k);
            let q = place(&grid.tiles, &contact.second, other);
            if p == q && meets_itself.is_none() {
                meets_itself = Some(n);
            }
            for (from, to) in [(p, q), (q, p)] {
                let is_other = own.insert(from, to).is_some_and(|before| before != to);
                if is_other || joined.contains_key(&from) {
                    return Err(format!("grid: ContactTwice atmos {n}"));
                }
                table[from.0][from.1] = to.0 as u32;
            }
        }
        joined.extend(own);
    }
    match meets_itself {
        Some(n) => Err(format!("grid: SelfMeet atmos {n}")),
        None => Ok(table),
    }
}

/// The numbers of the next section, and the bytes behind it.
fn read_section(bytes: &[u8], section: u32, count: usize) -> Result<(Vec<i64>, &[u8]), String> {
    let Some((head, rest)) = bytes.split_first_chunk::<8>() else {
        return Err("start: Short".into());
    };
    if u64::from_be_bytes(*head) != count as u64 {
        return Err(format!("start: Shape {section}"));
    }
    if rest.len() < 8 * count {
        return Err("start: Short".into());
    }
    let (front, rest) = rest.split_at(8 * count);
    let numbers = front.chunks_exact(8).map(|c| i64::from_be_bytes(c.try_into().unwrap())).collect();
    Ok((numbers, rest))
}

fn read_start(bytes: &[u8], cells: usize) -> Result<[Vec<i64>; 2], String> {
    let Some(rest) = bytes.strip_prefix(b"CPLAIR01") else {
        return Err(if bytes.len() < 8 { "start: Short" } else { "start: Magic" }.into());
    };
    let (heat, rest) = read_section(rest, 1, cells)?;
    let (vapour, rest) = read_section(rest, 2, cells)?;
    if !rest.is_empty() {
        return Err("start: Trailing".into());
    }
    for (section, numbers) in [(1, &heat), (2, &vapour)] {
        if let Some(index) = numbers.iter().position(|&x| x < 0) {
            return Err(format!("start: Negative {section} {index}"));
        }
    }
    Ok([heat, vapour])
}

/// What flows out of a cell with the amount `x` and the area `a` into one with the amount `y` and the area `b`.
fn flow(x: i64, a: i64, y: i64, b: i64) -> i64 {
    let parts = 8 * (a + b);
    match (x.checked_mul(b), y.checked_mul(a)) {
        (Some(more), Some(less)) => (more - less) / parts,
        _ => {
            let more = i128::from(x) * i128::from(b);
            let less = i128::from(y) * i128::from(a);
            ((more - less) / i128::from(parts)) as i64
        }
    }
}

fn step(area: &[i64], table: &[[u32; 4]], now: &[i64], next: &mut Vec<i64>) {
    next.clear();
    next.extend(now.iter().zip(area).zip(table).map(|((&x, &a), around)| {
        let flow_to = |&other: &u32| flow(x, a, now[other as usize], area[other as usize]);
        x - around.iter().map(flow_to).sum::<i64>()
    }));
}

/// The same by pairs of cells whose sides meet.
fn step_by_faces(area: &[i64], faces: &[(u32, u32)], now: &[i64], next: &mut Vec<i64>) {
    next.clear();
    next.extend_from_slice(now);
    for &(p, q) in faces {
        let (p, q) = (p as usize, q as usize);
        let out = flow(now[p], area[p], now[q], area[q]);
        next[p] -= out;
        next[q] += out;
    }
}

/// Each pair once: it stands at two sides, of which the one at the lesser cell is taken. Sides of one cell that meet each
/// other are left out, since nothing flows there.
fn faces(table: &[[u32; 4]]) -> Vec<(u32, u32)> {
    let all = table.iter().enumerate();
    let sides = all.flat_map(|(n, around)| around.iter().map(move |&other| (n as u32, other)));
    sides.filter(|(n, other)| n < other).collect()
}

fn solo(words: &[String]) -> Result<(), String> {
    let ([grid, start, out, steps] | [grid, start, out, steps, _]) = words else {
        return Err("usage".into());
    };
    let steps: u32 = steps.parse().map_err(|_| "usage")?;
    let bytes = fs::read(grid).map_err(|_| "cannot read grid")?;
    let start = fs::read(start).map_err(|_| "cannot read start")?;
    let grid = read_grid(&bytes)?;
    drop(bytes);
    let table = neighbours(&grid)?;
    let cells = grid.area.len();
    let mut air = read_start(&start, cells)?;
    drop(start);
    for (name, numbers) in ["heat", "water"].iter().zip(&air) {
        let total: i128 = numbers.iter().map(|&x| i128::from(x)).sum();
        if total > MOST_TOTAL {
            return Err(format!("budget: {name} {total}"));
        }
    }
    let mut next = Vec::with_capacity(cells);
    let by_faces = (words.len() == 5).then(|| faces(&table));
    for _ in 0..steps {
        for now in &mut air {
            match &by_faces {
                Some(faces) => step_by_faces(&grid.area, faces, now, &mut next),
                None => step(&grid.area, &table, now, &mut next),
            }
            std::mem::swap(now, &mut next);
        }
    }
    let mut bytes = Vec::with_capacity(24 + 16 * cells);
    bytes.extend_from_slice(b"CPLAIR01");
    for numbers in &air {
        bytes.extend_from_slice(&(cells as u64).to_be_bytes());
        bytes.extend(numbers.iter().flat_map(|x| x.to_be_bytes()));
    }
    fs::write(format!("{out}.restart"), bytes).map_err(|_| "cannot write restart")?;
    println!("done {steps} {cells} 0");
    Ok(())
}

fn main() -> ExitCode {
    let words: Vec<String> = env::args().skip(1).collect();
    match solo(&words) {
        Ok(()) => ExitCode::SUCCESS,
        Err(fault) => {
            eprintln!("solo_plain: {fault}");
            ExitCode::FAILURE
        }
    }
}
