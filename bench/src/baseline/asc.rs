//! IceStorm's ASCII files: reading, writing, and ground 13.
use super::*;

const DEVICE: &[u8] = b".device 1k";

/// A block's size and its south-west corner on the chip.
#[derive(Clone, Copy)]
pub struct Area {
    pub w: u32,
    pub h: u32,
    pub x: u32,
    pub y: u32,
}

impl Area {
    /// The number of tiles, or ground 1.
    fn tiles(&self) -> Result<usize, No> {
        let n = tiles(self.w, self.h)?;
        let fits = |from: u32, count: u32| from <= 256 - count;
        if fits(self.x, self.w) && fits(self.y, self.h) {
            Ok(n)
        } else {
            Err(no(1, 0))
        }
    }

    /// The index of the tile at these coordinates, where it is in the block.
    fn tile(&self, x: u32, y: u32) -> Option<usize> {
        let inside = x >= self.x && x - self.x < self.w && y >= self.y && y - self.y < self.h;
        inside.then(|| ((y - self.y) * self.w + x - self.x) as usize)
    }

    fn coordinates(&self) -> impl Iterator<Item = (u32, u32)> {
        let Area { w, h, x, y } = *self;
        (y..y + h).flat_map(move |row| (x..x + w).map(move |column| (column, row)))
    }
}

/// A coordinate: decimal, 0 to 255, no leading zeros.
fn coordinate(word: &[u8]) -> Option<u32> {
    if word.is_empty() || word.len() > 3 || word.len() > 1 && word[0] == b'0' {
        return None;
    }
    let mut value = 0;
    for &digit in word {
        if !digit.is_ascii_digit() {
            return None;
        }
        value = 10 * value + (digit - b'0') as u32;
    }
    (value <= 255).then_some(value)
}

/// The 54 digits of a row, the first with weight 1.
fn row(line: &[u8]) -> Option<u64> {
    if line.len() != COLUMNS {
        return None;
    }
    let (mut word, mut wrong) = (0, 0);
    for (c, &digit) in line.iter().enumerate() {
        word |= ((digit & 1) as u64) << c;
        wrong |= digit ^ b'0' ^ (digit & 1);
    }
    (wrong == 0).then_some(word)
}

/// What is due, and what has come.
struct Reader<'a> {
    area: Area,
    bits: &'a mut [u64],
    given: [bool; 64],
    device: bool,
    skipping: bool,
    /// The tile that is open, and how many of its rows have come.
    tile: usize,
    rows: usize,
}

impl Reader<'_> {
    /// Takes in a line; none where it is not of the shape due.
    fn line(&mut self, line: &[u8]) -> Option<()> {
        if line.is_empty() {
            return Some(());
        }
        if self.rows < WORDS {
            let word = row(line)?;
            self.put(word);
            return Some(());
        }
        if line[0] != b'.' {
            return self.skipping.then_some(());
        }
        let first = line.iter().position(|&b| b == b' ').unwrap_or(line.len());
        match &line[..first] {
            b".device" => self.device(line),
            b".logic_tile" => self.header(line.get(first + 1..)?),
            _ => {
                self.skipping = true;
                Some(())
            }
        }
    }

    fn put(&mut self, word: u64) {
        self.bits[WORDS * self.tile + self.rows] = word;
        self.rows += 1;
    }

    fn device(&mut self, line: &[u8]) -> Option<()> {
        if self.device || line != DEVICE {
            return None;
        }
        self.device = true;
        self.skipping = false;
        Some(())
    }

    fn header(&mut self, words: &[u8]) -> Option<()> {
        let space = words.iter().position(|&b| b == b' ')?;
        let (x, y) = (coordinate(&words[..space])?, coordinate(&words[space + 1..])?);
        match self.area.tile(x, y) {
            None => self.skipping = true,
            Some(t) if self.given[t] => return None,
            Some(t) => {
                self.given[t] = true;
                self.skipping = false;
                self.tile = t;
                self.rows = 0;
            }
        }
        Some(())
    }
}

pub fn asc_read(area: Area, text: &[u8], bits: &mut [u64]) -> Answer {
    let n = area.tiles()?;
    lengths(&[(bits.len(), WORDS * n)])?;
    let mut read = vec![0; WORDS * n];
    let mut reader = Reader { area, bits: &mut read, given: [false; 64], device: false, skipping: false, tile: 0, rows: WORDS };
    let (mut rest, mut lines) = (text, 0);
    while !rest.is_empty() {
        lines += 1;
        let end = rest.iter().position(|&b| b == b'\n').ok_or_else(|| no(13, lines))?;
        reader.line(&rest[..end]).ok_or_else(|| no(13, lines))?;
        rest = &rest[end + 1..];
    }
    if !reader.device || reader.rows < WORDS || reader.given[..n].contains(&false) {
        return Err(no(13, lines + 1));
    }
    bits.copy_from_slice(&read);
    Ok(0)
}

fn digits(number: u32) -> usize {
    1 + (number > 9) as usize + (number > 99) as usize
}

pub fn asc_length(area: Area) -> Answer {
    area.tiles()?;
    let length: usize = area.coordinates().map(|(x, y)| 14 + digits(x) + digits(y) + WORDS * (COLUMNS + 1)).sum();
    Ok((DEVICE.len() + 1 + length) as u32)
}

/// Bytes at the front of what is left, which gets shorter.
fn put(rest: &mut &mut [u8], bytes: &[u8]) {
    let (front, behind) = std::mem::take(rest).split_at_mut(bytes.len());
    front.copy_from_slice(bytes);
    *rest = behind;
}

fn put_decimal(rest: &mut &mut [u8], number: u32) {
    let all = [number / 100, number / 10 % 10, number % 10].map(|digit| b'0' + digit as u8);
    put(rest, &all[3 - digits(number)..]);
}

fn put_row(rest: &mut &mut [u8], row: u64) {
    let mut line = [b'\n'; COLUMNS + 1];
    for (c, digit) in line[..COLUMNS].iter_mut().enumerate() {
        *digit = b'0' + (row >> c & 1) as u8;
    }
    put(rest, &line);
}

pub fn asc_write(area: Area, bits: &[u64], text: &mut [u8]) -> Answer {
    let n = area.tiles()?;
    lengths(&[(bits.len(), WORDS * n), (text.len(), asc_length(area)? as usize)])?;
    if let Some(place) = stray(bits) {
        return Err(no(4, place));
    }
    let mut rest = text;
    put(&mut rest, DEVICE);
    put(&mut rest, b"\n");
    for ((x, y), tile) in area.coordinates().zip(bits.chunks_exact(WORDS)) {
        put(&mut rest, b".logic_tile ");
        put_decimal(&mut rest, x);
        put(&mut rest, b" ");
        put_decimal(&mut rest, y);
        put(&mut rest, b"\n");
        tile.iter().for_each(|&row| put_row(&mut rest, row));
    }
    Ok(0)
}
