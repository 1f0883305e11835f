//! `twodfq script` under `2dfq` or `2dfq+` and `pessimistic`, for scripts of the first version, in ordinary Rust without contracts:
//! the same design, and memory that never runs out. With the argument `journal` it prints the journal in place of the replies. With
//! the arguments `run`, `journal` or `report`, a number of workers, and `2dfq+` if it is not to be `2dfq`, it works like
//! `twodfq run` on a trace. `bench/run` measures the program against it.
mod entry;
mod pace;
mod report;
mod scheduler;
mod text;
mod trace;
mod tree;

use entry::Refusal;
use scheduler::{Scheduler, Tenant};
use std::io::{Read, Write};
use std::process::exit;
use text::{Cursor, fail, line_of, refused, row};

/// A scheduler by the head of a script, and the place of its body.
fn open(input: &[u8]) -> (Scheduler, Cursor<'_>) {
    let mut c = Cursor {
        bytes: input,
        at: 0,
        line: 1,
    };
    if c.word() != b"script" || c.number() != 1 {
        fail(1)
    }
    c.end_line();
    if c.word() != b"config" {
        fail(2)
    }
    let workers = c.small();
    let is_plus = match c.next_word() {
        b"2dfq" => false,
        b"2dfq+" => true,
        _ => fail(2),
    };
    if c.next_word() != b"pessimistic" {
        fail(2)
    }
    let (initial, entries, requests) = (c.number(), c.small(), c.small());
    c.end_line();
    let (tenants, kinds) = names(&mut c);
    (
        Scheduler::open([workers, entries, requests, kinds], is_plus, initial, tenants),
        c,
    )
}

/// Reads the tenants with their weights, and counts the kinds.
fn names(c: &mut Cursor) -> (Vec<Tenant>, u32) {
    let (mut tenants, mut kinds) = (Vec::new(), 0);
    loop {
        let begin = c.at;
        match c.word() {
            b"tenant" => {
                c.next_word();
                tenants.push(Tenant {
                    weight: c.small(),
                    ..Tenant::default()
                });
            }
            b"kind" => {
                c.next_word();
                kinds += 1;
            }
            _ => {
                c.at = begin;
                return (tenants, kinds);
            }
        }
        c.end_line();
    }
}

/// The printed text, and whether it has the replies.
struct Output {
    text: Vec<u8>,
    replies: bool,
}

impl Output {
    fn reply(&mut self, word: &str, numbers: &[u64]) {
        if self.replies {
            row(&mut self.text, word, numbers);
        }
    }
    fn refuse(&mut self, why: Refusal) {
        if self.replies {
            refused(&mut self.text, why);
        }
    }
}

/// Answers the call of a line.
fn answer(s: &mut Scheduler, c: &mut Cursor, out: &mut Output) {
    let word = c.word();
    let (who, moment) = (c.small(), c.number());
    match word {
        b"submit" => {
            let (tenant, kind, declared, label) = (c.small(), c.small(), c.number(), c.number());
            match s.submit(who, moment, tenant, kind, declared, label) {
                Ok(request) => out.reply("request", &[request as u64]),
                Err(why) => out.refuse(why),
            }
        }
        b"take" => match s.take(who, moment, c.small()) {
            Ok(Some((request, estimate, label))) => out.reply("run", &[request as u64, estimate, label]),
            Ok(None) => out.reply(if s.closed { "drained" } else { "idle" }, &[]),
            Err(why) => out.refuse(why),
        },
        b"report" => accepted(out, s.report(who, moment, c.small(), c.number())),
        b"done" => accepted(out, s.done(who, moment, c.small(), c.number())),
        b"close" => accepted(out, s.close(who, moment)),
        _ => fail(c.line),
    }
}

fn accepted(out: &mut Output, answer: Result<(), Refusal>) {
    match answer {
        Ok(()) => out.reply("ok", &[]),
        Err(why) => out.refuse(why),
    }
}

/// Appends the journal of a scheduler under this head.
fn add_journal(out: &mut Vec<u8>, head: &[u8], s: &Scheduler) {
    out.reserve(48 * s.past.len());
    out.extend_from_slice(b"journal 1\n");
    out.extend_from_slice(head);
    s.past.iter().for_each(|entry| line_of(out, entry));
}

/// The output of `script`.
fn script(input: &[u8], journal: bool) -> Vec<u8> {
    let (mut s, mut c) = open(input);
    // below their first lines the heads of a script and of its journal are equal
    let head = &input[b"script 1\n".len()..c.at];
    let mut out = Output {
        text: Vec::new(),
        replies: !journal,
    };
    while c.at < input.len() {
        answer(&mut s, &mut c, &mut out);
        c.end_line();
    }
    if journal {
        add_journal(&mut out.text, head, &s);
    }
    out.text
}

/// The output of `run`.
fn run(input: &[u8], journal: bool, workers: u32, is_plus: bool) -> Vec<u8> {
    let trace = trace::read(std::str::from_utf8(input).unwrap_or_else(|_| exit(3)));
    let s = trace::simulate(&trace, workers, is_plus);
    let mut text = Vec::new();
    if journal {
        let mut head = Vec::new();
        trace::head(&mut head, &trace, &s);
        add_journal(&mut text, &head, &s);
    } else {
        report::report(&mut text, &s.past, &trace, workers).unwrap_or_else(|_| exit(6));
    }
    text
}

fn main() {
    let words: Vec<String> = std::env::args().skip(1).collect();
    let mut input = Vec::new();
    std::io::stdin().read_to_end(&mut input).unwrap_or_else(|_| exit(4));
    let text = match words.iter().map(String::as_str).collect::<Vec<_>>()[..] {
        [] => script(&input, false),
        ["journal"] => script(&input, true),
        ["run", what, workers, ref policy @ ..] if matches!(policy, [] | ["2dfq+"]) => {
            let workers = workers.parse().unwrap_or_else(|_| exit(2));
            run(&input, what == "journal", workers, !policy.is_empty())
        }
        _ => exit(2),
    };
    std::io::stdout().write_all(&text).unwrap_or_else(|_| exit(5));
}
