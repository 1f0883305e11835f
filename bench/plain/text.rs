//! Words and numbers of lines.
use crate::entry::{Act, Entry, Refusal};
use std::process::exit;

pub struct Cursor<'a> {
    pub bytes: &'a [u8],
    pub at: usize,
    pub line: usize,
}

impl<'a> Cursor<'a> {
    pub fn word(&mut self) -> &'a [u8] {
        let begin = self.at;
        while self.at < self.bytes.len() && self.bytes[self.at] > b' ' {
            self.at += 1;
        }
        &self.bytes[begin..self.at]
    }
    pub fn number(&mut self) -> u64 {
        if self.at >= self.bytes.len() || self.bytes[self.at] != b' ' {
            fail(self.line)
        }
        self.at += 1;
        let begin = self.at;
        let mut n = 0u64;
        while self.at < self.bytes.len() && self.bytes[self.at].is_ascii_digit() {
            n = n.wrapping_mul(10).wrapping_add((self.bytes[self.at] - b'0') as u64);
            self.at += 1;
        }
        let digits = self.at - begin;
        if digits == 0 || digits > 19 || digits > 1 && self.bytes[begin] == b'0' {
            fail(self.line)
        }
        n
    }
    pub fn next_word(&mut self) -> &'a [u8] {
        if self.at >= self.bytes.len() || self.bytes[self.at] != b' ' {
            fail(self.line)
        }
        self.at += 1;
        self.word()
    }
    pub fn end_line(&mut self) {
        if self.at < self.bytes.len() && self.bytes[self.at] != b'\n' {
            fail(self.line)
        }
        self.at += 1;
        self.line += 1;
    }
    pub fn small(&mut self) -> u32 {
        u32::try_from(self.number()).unwrap_or_else(|_| fail(self.line))
    }
}

pub fn row(out: &mut Vec<u8>, word: &str, numbers: &[u64]) {
    out.extend_from_slice(word.as_bytes());
    for &n in numbers {
        out.push(b' ');
        add(out, n);
    }
    out.push(b'\n');
}

pub fn add(out: &mut Vec<u8>, mut n: u64) {
    let mut digits = [0u8; 20];
    let mut at = 20;
    loop {
        at -= 1;
        digits[at] = b'0' + (n % 10) as u8;
        n /= 10;
        if n == 0 {
            break;
        }
    }
    out.extend_from_slice(&digits[at..]);
}

pub fn line_of(out: &mut Vec<u8>, entry: &Entry) {
    let (who, moment) = (entry.who as u64, entry.moment);
    match entry.act {
        Act::Submit {
            request,
            tenant,
            kind,
            declared,
            label,
        } => {
            let numbers = [who, moment, request as u64, tenant as u64, kind as u64, declared, label];
            row(out, "submit", &numbers)
        }
        Act::Take {
            worker,
            request,
            estimate,
        } => row(out, "take", &[who, moment, worker as u64, request as u64, estimate]),
        Act::Report { worker, request, used } => {
            row(out, "report", &[who, moment, worker as u64, request as u64, used])
        }
        Act::Done { worker, request, cost } => row(out, "done", &[who, moment, worker as u64, request as u64, cost]),
        Act::Close => row(out, "close", &[who, moment]),
    }
}

pub fn refused(out: &mut Vec<u8>, why: Refusal) {
    match why {
        Refusal::Closed => row(out, "refused closed", &[]),
        Refusal::Tenant(n) => row(out, "refused tenant", &[n as u64]),
        Refusal::Kind(n) => row(out, "refused kind", &[n as u64]),
        Refusal::Cost(n) => row(out, "refused cost", &[n]),
        Refusal::Slots(n) => row(out, "refused slots", &[n]),
        Refusal::Full(n) => row(out, "refused full", &[n]),
        Refusal::Worker(n) => row(out, "refused worker", &[n as u64]),
        Refusal::Busy(n) => row(out, "refused busy", &[n as u64]),
        Refusal::NotRunning => row(out, "refused not-running", &[]),
        Refusal::Falling(a, b) => row(out, "refused falling", &[a, b]),
    }
}

pub fn fail(line: usize) -> ! {
    eprintln!("line {line}: not understood");
    exit(3)
}
