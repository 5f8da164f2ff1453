// The plan printer in plain Rust: the same checks in the same order and buffers of the same sizes,
// for bench/run.sh to time beside the proved one. bench/core.rs uses the reader.
use std::io::{Read, Write};

const RECORD: usize = 66;
const PIECE: usize = 992 * RECORD;
const TEXT: usize = 992 * 378;

#[derive(Clone, Copy)]
pub struct Plan {
    pub start: u32,
    pub end: u32,
    pub steps: usize,
    pub word: u8,
    pub extra: Option<[u32; 2]>,
    pub pairs: [[u32; 2]; 6],
}

// A field of four bytes, two decimal digits a byte; none where a digit is above 9.
fn field(s: &[u8], at: usize) -> Option<u32> {
    let mut x = 0;
    for &b in &s[at..at + 4] {
        if b >> 4 > 9 || b & 15 > 9 {
            return None;
        }
        x = x * 100 + (b >> 4) as u32 * 10 + (b & 15) as u32;
    }
    Some(x)
}

pub fn is_date(d: u32) -> bool {
    let (y, m, day) = (d / 10_000, d / 100 % 100, d % 100);
    let most = match m {
        1 | 3 | 5 | 7 | 8 | 10 | 12 => 31,
        4 | 6 | 9 | 11 => 30,
        2 if y % 4 == 0 => 29,
        2 => 28,
        _ => return false,
    };
    (2000..=2099).contains(&y) && 1 <= day && day <= most
}

// The fields that are read; refusals 1 to 4.
fn fields(s: &[u8]) -> Result<Plan, u8> {
    if s.len() != RECORD {
        return Err(1);
    }
    let steps = s[8] as usize;
    if !(1..=6).contains(&steps) {
        return Err(2);
    }
    let word = if steps == 1 { 0 } else { s[9] };
    if steps > 1 && !(1..=5).contains(&word) {
        return Err(3);
    }
    let start = field(s, 0).ok_or(4)?;
    let end = field(s, 4).ok_or(4)?;
    let extra = match word {
        4 | 5 => Some([field(s, 10).ok_or(4)?, field(s, 14).ok_or(4)?]),
        _ => None,
    };
    let mut pairs = [[0; 2]; 6];
    for (i, pair) in pairs.iter_mut().enumerate().take(steps) {
        *pair = [
            field(s, 18 + 8 * i).ok_or(4)?,
            field(s, 22 + 8 * i).ok_or(4)?,
        ];
    }
    Ok(Plan {
        start,
        end,
        steps,
        word,
        extra,
        pairs,
    })
}

// Refusals 5 to 7.
pub fn plan_refusal(p: &Plan) -> Result<(), u8> {
    let dates = is_date(p.start) && is_date(p.end);
    let (more_dates, more_days) = match (p.word, p.extra) {
        (4, Some([a, b])) => (is_date(a) && is_date(b), a < b && p.start < b && a < p.end),
        (5, Some([a, n])) => (is_date(a), n > 0),
        _ => (true, true),
    };
    if !(dates && more_dates) {
        return Err(5);
    }
    if !(p.start < p.end && more_days) {
        return Err(6);
    }
    if p.pairs[..p.steps].iter().any(|pair| pair[1] == 0) {
        return Err(7);
    }
    Ok(())
}

pub fn read(s: &[u8]) -> Result<Plan, u8> {
    let p = fields(s)?;
    plan_refusal(&p)?;
    Ok(p)
}

fn put(mut x: u32, after: u8, out: &mut Vec<u8>) {
    let mut text = [0u8; 10];
    let mut at = text.len();
    loop {
        at -= 1;
        text[at] = b'0' + (x % 10) as u8;
        x /= 10;
        if x == 0 {
            break;
        }
    }
    out.extend_from_slice(&text[at..]);
    out.push(after);
}

fn line(s: &[u8], out: &mut Vec<u8>) {
    match read(s) {
        Err(n) => {
            out.extend_from_slice(b"refused ");
            put(n as u32, b'\n', out);
        }
        Ok(p) => {
            put(p.start, b' ', out);
            put(p.end, b' ', out);
            put(p.steps as u32, b' ', out);
            put(p.word as u32, b' ', out);
            if let Some([a, b]) = p.extra {
                put(a, b' ', out);
                put(b, b' ', out);
            }
            for (i, pair) in p.pairs[..p.steps].iter().enumerate() {
                put(pair[0], b' ', out);
                put(pair[1], if i + 1 == p.steps { b'\n' } else { b' ' }, out);
            }
        }
    }
}

fn read_full(input: &mut impl Read, buf: &mut [u8]) -> usize {
    let mut done = 0;
    while done < buf.len() {
        match input.read(&mut buf[done..]) {
            Ok(n) if n > 0 => done += n,
            _ => break,
        }
    }
    done
}

fn main() {
    let mut input = std::io::stdin().lock();
    let mut output = std::io::stdout().lock();
    let mut records = vec![0u8; PIECE];
    let mut text = Vec::with_capacity(TEXT);
    loop {
        let got = read_full(&mut input, &mut records);
        text.clear();
        for record in records[..got].chunks(RECORD) {
            line(record, &mut text);
        }
        if output.write_all(&text).is_err() || got < PIECE {
            break;
        }
    }
}
