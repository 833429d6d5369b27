//! Makes the calls on standard input through libcronsim, and prints each answer on a line: the
//! status and the JSON.
use std::io::BufRead;

const ROOM: u32 = 6;

unsafe extern "C" {
    fn cronsim_plan(
        text: *const u8,
        size: usize,
        now: u64,
        answer: *mut u8,
        room: usize,
        length: &mut usize,
    ) -> u32;
    fn cronsim_check(
        text: *const u8,
        size: usize,
        zones: *const u8,
        zones_size: usize,
        answer: *mut u8,
        room: usize,
        length: &mut usize,
    ) -> u32;
    fn cronsim_audit(
        text: *const u8,
        size: usize,
        zones: *const u8,
        zones_size: usize,
        answer: *mut u8,
        room: usize,
        length: &mut usize,
    ) -> u32;
    fn cronsim_why(
        text: *const u8,
        size: usize,
        zones: *const u8,
        zones_size: usize,
        now: u64,
        answer: *mut u8,
        room: usize,
        length: &mut usize,
    ) -> u32;
    fn cronsim_upcoming(
        text: *const u8,
        size: usize,
        zones: *const u8,
        zones_size: usize,
        from: u64,
        span: u64,
        peaks: u32,
        answer: *mut u8,
        room: usize,
        length: &mut usize,
    ) -> u32;
    fn cronsim_describe(
        text: *const u8,
        size: usize,
        zones: *const u8,
        zones_size: usize,
        after: u64,
        count: u16,
        answer: *mut u8,
        room: usize,
        length: &mut usize,
    ) -> u32;
}

fn text(digits: &str) -> Vec<u8> {
    if digits == "." {
        return Vec::new();
    }
    let pairs = digits.as_bytes().chunks(2);
    let text = |pair| std::str::from_utf8(pair).expect("digits");
    pairs.map(|pair| u8::from_str_radix(text(pair), 16).expect("digits")).collect()
}

/// What a call answers: at most twice, since it tells how much room it wants.
fn told(call: impl Fn(&mut [u8], &mut usize) -> u32) -> (u32, Vec<u8>) {
    let (mut answer, mut length) = (vec![0; 400], 0);
    let mut status = call(&mut answer, &mut length);
    if status == ROOM {
        answer = vec![0; length];
        status = call(&mut answer, &mut length);
    }
    answer.truncate(length);
    (status, answer)
}

fn answer(words: &[&str]) -> (u32, Vec<u8>) {
    let (zones, input) = (text(words[1]), text(words[2]));
    let numbers: Vec<u64> = words[3..].iter().map(|it| it.parse().expect("a number")).collect();
    let (at, size) = (input.as_ptr(), input.len());
    let (by, many) = (zones.as_ptr(), zones.len());
    told(|answer, length| unsafe {
        let (to, room) = (answer.as_mut_ptr(), answer.len());
        match (words[0], &numbers[..]) {
            ("plan", &[now]) => cronsim_plan(at, size, now, to, room, length),
            ("check", _) => cronsim_check(at, size, by, many, to, room, length),
            ("why", &[now]) => cronsim_why(at, size, by, many, now, to, room, length),
            ("upcoming", &[from, span, peaks]) => {
                cronsim_upcoming(at, size, by, many, from, span, peaks as u32, to, room, length)
            }
            ("describe", &[after, count]) => {
                cronsim_describe(at, size, by, many, after, count as u16, to, room, length)
            }
            _ => cronsim_audit(at, size, by, many, to, room, length),
        }
    })
}

fn main() {
    for line in std::io::stdin().lock().lines() {
        let line = line.expect("a line");
        let (status, bytes) = answer(&line.split('\t').collect::<Vec<&str>>());
        println!("{status} {}", String::from_utf8(bytes).expect("a text"));
    }
}
