//! Makes an input that shows a difference smaller.

use std::time::{Duration, Instant};

/// Makes a text smaller while `differs` stays true of it: first lines are
/// dropped, in runs and then one by one, then the bytes of frames are made 0,
/// or else smaller. Once the time is over the smallest one so far is given
/// back.
pub fn shrink(text: &[u8], time: Duration, mut differs: impl FnMut(&[u8]) -> bool) -> Vec<u8> {
    let begun = Instant::now();
    let mut differs = |text: &[u8]| begun.elapsed() < time && differs(text);
    let mut smallest = text.to_vec();
    loop {
        let before = smallest.clone();
        drop_lines(&mut smallest, &mut differs);
        simplify_bytes(&mut smallest, &mut differs);
        if smallest == before {
            return smallest;
        }
    }
}

/// Takes `candidate` for `smallest` where it still differs.
fn take(
    smallest: &mut Vec<u8>,
    candidate: Vec<u8>,
    differs: &mut impl FnMut(&[u8]) -> bool,
) -> bool {
    let better = candidate != *smallest && differs(&candidate);
    if better {
        *smallest = candidate;
    }
    better
}

fn drop_lines(smallest: &mut Vec<u8>, differs: &mut impl FnMut(&[u8]) -> bool) {
    let mut run = lines(smallest).len().div_ceil(2).max(1);
    loop {
        let mut at = 0;
        while at < lines(smallest).len() {
            let kept: Vec<u8> = {
                let all = lines(smallest);
                let end = all.len().min(at + run);
                [&all[..at], &all[end..]].concat().concat()
            };
            if !take(smallest, kept, differs) {
                at += run;
            }
        }
        if run == 1 {
            return;
        }
        run = run.div_ceil(2);
    }
}

/// The lines of a text, each with its newline.
fn lines(text: &[u8]) -> Vec<&[u8]> {
    text.split_inclusive(|byte| *byte == b'\n').collect()
}

/// Tries 0 for each pair of digits of each frame, then one less.
fn simplify_bytes(smallest: &mut Vec<u8>, differs: &mut impl FnMut(&[u8]) -> bool) {
    let mut start = 0;
    while start < smallest.len() {
        let rest = &smallest[start..];
        let length = rest.iter().position(|byte| *byte == b'\n').map_or(rest.len(), |at| at + 1);
        // The first pair is the call: it is what it is.
        for pair in 1..length / 2 {
            simplify_pair(smallest, start + 2 * pair, differs);
        }
        start += length;
    }
}

fn simplify_pair(smallest: &mut Vec<u8>, at: usize, differs: &mut impl FnMut(&[u8]) -> bool) {
    let with = |text: &[u8], byte: u8| {
        let mut candidate = text.to_vec();
        candidate[at..at + 2].copy_from_slice(format!("{byte:02x}").as_bytes());
        candidate
    };
    loop {
        let pair = std::str::from_utf8(&smallest[at..at + 2]).ok();
        let Some(byte) = pair.and_then(|pair| u8::from_str_radix(pair, 16).ok()) else {
            return;
        };
        if byte == 0 || take(smallest, with(smallest, 0), differs) {
            return;
        }
        if !take(smallest, with(smallest, byte - 1), differs) {
            return;
        }
    }
}

#[cfg(test)]
mod tests {
    use super::shrink;
    use std::time::Duration;

    const LONG: Duration = Duration::from_secs(60);

    #[test]
    fn only_what_is_needed_is_left() {
        let text =
            b"0102000000000000\n0200000000000000\nzz\n0305070000001234\n\n0c00000000000000\n";
        let needs_the_set = |text: &[u8]| {
            let mut lines = text.split(|byte| *byte == b'\n');
            lines.any(|line| line.len() == 16 && line.starts_with(b"03") && &line[4..6] >= b"03")
        };
        assert_eq!(shrink(text, LONG, needs_the_set), b"0300030000000000\n");
    }

    #[test]
    fn what_cannot_be_smaller_stays() {
        assert_eq!(shrink(b"ab", LONG, |text| text == b"ab"), b"ab");
        assert_eq!(shrink(b"", LONG, |_| true), b"");
        assert_eq!(shrink(b"a\nb\n", Duration::ZERO, |_| true), b"a\nb\n");
    }
}
