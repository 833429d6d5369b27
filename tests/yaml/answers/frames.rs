use std::str;

// The text in front, behind the line with its length, and what follows it.
pub(crate) fn next_frame(input: &[u8]) -> Option<(&[u8], &[u8])> {
    let end = input.iter().position(|b| *b == b'\n')?;
    let len = str::from_utf8(&input[..end]).ok()?.parse::<usize>().ok()?;
    let rest = &input[end..][1..];
    if len > rest.len() {
        return None;
    }
    Some(rest.split_at(len))
}
