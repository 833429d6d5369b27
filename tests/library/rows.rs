//! Runs the cases on standard input through libcronsim, declared by hand.
use std::ffi::c_void;
use std::io::BufRead;
use std::process::exit;

#[repr(C)]
struct Cron {
    at: *mut c_void,
    full: bool,
}

#[repr(C)]
#[derive(Default)]
struct Fault {
    field: u32,
    cause: u32,
    byte: u64,
}

#[repr(C)]
#[derive(Default)]
struct Missed {
    count: u64,
    latest: u64,
}

extern "C" {
    fn cronsim_open(cron: &mut Cron, schedule: *const u8, length: usize, fault: &mut Fault) -> u32;
    fn cronsim_open_rule(
        cron: &mut Cron,
        schedule: *const u8,
        length: usize,
        rule: *const u8,
        rule_length: usize,
        fault: &mut Fault,
    ) -> u32;
    fn cronsim_close(cron: &mut Cron);
    fn cronsim_next(cron: &mut Cron, after: u64, due: &mut u64) -> u32;
    fn cronsim_next_many(
        cron: &mut Cron,
        after: u64,
        until: u64,
        times: *mut u64,
        capacity: usize,
        count: &mut usize,
    ) -> u32;
    fn cronsim_previous(cron: &mut Cron, after: u64, until: u64, due: &mut u64) -> u32;
    fn cronsim_missed(cron: &mut Cron, after: u64, until: u64, missed: &mut Missed) -> u32;
    fn cronsim_matches(cron: &mut Cron, at: u64, is_match: &mut bool) -> u32;
    fn cronsim_fault_text(
        schedule: *const u8,
        length: usize,
        fault: &Fault,
        answer: *mut u8,
        capacity: usize,
        size: &mut usize,
    ) -> u32;
}

const DONE: u32 = 0;
const NONE: u32 = 1;
const REFUSED: u32 = 2;
const NO_ZONE: u64 = 10;

/// A timetable that is kept, and given up where it is dropped.
struct Timetable(Cron);

impl Drop for Timetable {
    fn drop(&mut self) {
        unsafe { cronsim_close(&mut self.0) }
    }
}

impl Timetable {
    fn open(&mut self, schedule: &[u8], rule: Option<&[u8]>) -> (u32, Fault) {
        let mut fault = Fault::default();
        let (start, length) = (schedule.as_ptr(), schedule.len());
        let status = match rule {
            None => unsafe { cronsim_open(&mut self.0, start, length, &mut fault) },
            Some(rule) => unsafe {
                cronsim_open_rule(&mut self.0, start, length, rule.as_ptr(), rule.len(), &mut fault)
            },
        };
        (status, fault)
    }

    fn next(&mut self, after: u64) -> (u32, u64) {
        let mut due = 0;
        let status = unsafe { cronsim_next(&mut self.0, after, &mut due) };
        (status, due)
    }

    /// All of an interval, by a call with room for `room` of them and one more.
    fn next_many(&mut self, after: u64, until: u64, room: usize) -> Option<Vec<u64>> {
        let (mut times, mut count) = (vec![0; room + 1], 0);
        let (start, capacity) = (times.as_mut_ptr(), times.len());
        let status =
            unsafe { cronsim_next_many(&mut self.0, after, until, start, capacity, &mut count) };
        times.truncate(count);
        (status == DONE).then_some(times)
    }

    fn previous(&mut self, after: u64, until: u64) -> (u32, u64) {
        let mut due = 0;
        let status = unsafe { cronsim_previous(&mut self.0, after, until, &mut due) };
        (status, due)
    }

    fn matches(&mut self, at: u64) -> (u32, bool) {
        let mut is_match = false;
        let status = unsafe { cronsim_matches(&mut self.0, at, &mut is_match) };
        (status, is_match)
    }

    fn missed(&mut self, after: u64, until: u64) -> (u32, u64, u64) {
        let mut missed = Missed::default();
        let status = unsafe { cronsim_missed(&mut self.0, after, until, &mut missed) };
        (status, missed.count, missed.latest)
    }
}

fn text(digits: &str) -> Option<Vec<u8>> {
    if digits == "." {
        return Some(Vec::new());
    }
    let pairs = digits.as_bytes().chunks(2);
    pairs.map(|pair| u8::from_str_radix(std::str::from_utf8(pair).ok()?, 16).ok()).collect()
}

/// Whether these times come, each by the call for the next one, and the same looked at from the
/// other end, and all at once.
fn times(cron: &mut Timetable, after: u64, wanted: &[&str]) -> bool {
    let (mut at, mut came) = (after, Vec::new());
    for word in wanted {
        if *word == "none" {
            if cron.next(at).0 != NONE {
                return false;
            }
            break;
        }
        let (status, due) = cron.next(at);
        let is_due = status == DONE && word.parse() == Ok(due);
        if !is_due || cron.matches(due) != (DONE, true) || cron.previous(at, due) != (DONE, due) {
            return false;
        }
        at = due;
        came.push(due);
    }
    let (count, latest) = (came.len() as u64, came.last().copied().unwrap_or(0));
    cron.next_many(after, at, came.len()) == Some(came)
        && cron.missed(after, at) == (DONE, count.min(101), latest)
}

/// What is said of a fault; nothing where there are no words.
fn sentence(schedule: &[u8], fault: &Fault) -> Vec<u8> {
    let (mut answer, mut size) = (vec![0; 1024], 0);
    let (start, length, room) = (schedule.as_ptr(), schedule.len(), answer.len());
    let status = unsafe {
        cronsim_fault_text(start, length, fault, answer.as_mut_ptr(), room, &mut size)
    };
    answer.truncate(if status == DONE { size } else { 0 });
    answer
}

fn is_right(cron: &mut Timetable, line: &str) -> Option<bool> {
    let words: Vec<&str> = line.split('\t').collect();
    let rule = if words[1] == "-" { None } else { Some(text(words[1])?) };
    let (status, fault) = cron.open(&text(words[0])?, rule.as_deref());
    let rest = &words[5..];
    let told = [u64::from(fault.field), fault.byte, u64::from(fault.cause)];
    Some(match words[4] {
        "times" => status == DONE && times(cron, words[2].parse().ok()?, rest),
        "fault" => {
            let wanted = rest[..3].iter().map(|word| word.to_string());
            let is_said = match rest.get(3) {
                Some(said) => sentence(&text(words[0])?, &fault) == text(said)?,
                None => true,
            };
            is_said && status == REFUSED && told.iter().map(u64::to_string).eq(wanted)
        }
        _ => status == REFUSED && told == [6, 0, NO_ZONE],
    })
}

fn main() {
    let mut cron = Timetable(Cron { at: std::ptr::null_mut(), full: false });
    let mut count = 0;
    for line in std::io::stdin().lock().lines() {
        let line = line.expect("a line");
        count += 1;
        if is_right(&mut cron, &line) != Some(true) {
            eprintln!("library: Rust: case {count}: {line}");
            exit(1);
        }
    }
    drop(cron);
    println!("library: Rust: {count} rows");
    exit(i32::from(count == 0));
}
