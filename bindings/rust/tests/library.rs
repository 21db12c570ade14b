//! The safe functions over the linked library.

use endrusp::{RoomTooShort, generate, model, room_for, run, run_into};

const LONGEST_INPUT: usize = 65_536;

#[test]
fn an_empty_input_prints_nothing() {
    assert_eq!(run(b""), b"");
    let mut out = [0xaa; 11];
    assert_eq!(run_into(b"", &mut out), Ok(0));
}

#[test]
fn a_whole_run() {
    let input = b"\
0102000000000000
0200000000000000
0500000100000000
0b00000000000000
0901000000000000
0b00000000000000
0300000000000007
0b00000000000000
0b00000000000000
0901000000000000
0801000000000000
0b00000000000000
0800000000000000
";
    let output = b"\
0000000000
0000000000
0000000000
0000000000
4000000000
0f00000000
0000000000
0000000000
0000000000
0000000007
0000000000
0000000000
0000000040
";
    assert_eq!(run(input), output);
    assert_eq!(run(input.trim_ascii_end()), output);
    let mut out = vec![0; room_for(input.len())];
    assert_eq!(run_into(input, &mut out), Ok(output.len()));
    assert_eq!(&out[..output.len()], output);
}

/// The caller of new: a number of 0 to 255 is in no answer, a larger one is
/// refused.
#[test]
fn callers() {
    let mut input = b"\
0200000000000100
0102000000000000
0200000000000100
02000000000000ff
0200000000000007
02000000ffffffff
0200000001000000
0202000000000007
0202000000000100
0200010000000007
0200000100000007
0300010000000005
0900010000000000
0500000100000000
0b00000000000000
0901000000000000
0b00000000000000
"
    .to_vec();
    let mut output = b"\
0300000000
0000000000
1000000000
0000000000
0000000001
1000000000
1000000000
0300000000
0300000000
ff00000000
ff00000000
0000000000
0000000005
0000000000
0000000000
4000000000
0f00000000
"
    .to_vec();
    // Cells 2 to 31, and then there is none.
    for c in 2..32 {
        input.extend_from_slice(format!("02000000000000{:02x}\n", 8 * c).as_bytes());
        output.extend_from_slice(format!("00000000{c:02x}\n").as_bytes());
    }
    input.extend_from_slice(b"02000000000000ff\n0200000000000100\n0202000000000100\n");
    output.extend_from_slice(b"0c00000000\n1000000000\n0300000000\n");
    assert_eq!(run(&input), output);
}

/// One bind, of a variable that another worker reads, while the reference is
/// idle, while it is read, while the answer is on its way, and once the value is
/// known. Then the reference goes, and the variable is a value all the same.
#[test]
fn a_bind_to_a_known_reference() {
    let input = b"\
0102000000000000
0201000000000007
0501000000000000
0b00000000000000
0200000000000008
0500010100000000
0b00000000000000
0901010000000000
0b00000000000000
0400010000000000
0900000000000000
0400010000000000
03010000ffffffff
0b01000000000000
0400010000000000
0b01000000000000
0400010000000000
0900010000000000
0400010000000000
0a00010000000000
0800000000000000
0b01000000000000
0801000000000000
0b00000000000000
0b00000000000000
0901010000000000
0c00000000000000
";
    let output = b"\
0000000000
0000000000
0000000000
0000000000
0000000001
0000000000
0000000001
4000000000
0f00000000
0800000000
4000000001
0800000000
0000000000
0000000000
0800000000
0000000000
0000000000
00ffffffff
0600000000
0600000000
0000000001
0000000000
0000000040
0000000000
0000000001
00ffffffff
0000000000
";
    assert_eq!(run(input), output);
}

/// A new, a set and a read, with every caller.
#[test]
fn every_caller_of_a_byte() {
    for caller in 0..=255 {
        let input = format!(
            "0102000000000000\n02000000000000{caller:02x}\n03000000ffffffff\n0900000000000000\n"
        );
        let output = b"0000000000\n0000000000\n0000000000\n00ffffffff\n";
        assert_eq!(run(input.as_bytes()), output, "caller {caller}");
    }
}

/// 1,024 exports of one cell, delivered and kept; the 1,025th.
#[test]
fn the_ceiling() {
    let mut input = b"0102000000000000\n0200000000000000\n".to_vec();
    let mut output = b"0000000000\n0000000000\n".to_vec();
    for _ in 0..1_024 {
        input.extend_from_slice(b"0500000100000000\n0b00000000000000\n");
        output.extend_from_slice(b"0000000000\n0000000000\n");
    }
    input.extend_from_slice(b"0500000100000000\n");
    output.extend_from_slice(b"0a00000000\n");
    assert_eq!(run(&input), output);
}

#[test]
fn the_longest_input_is_run_and_one_byte_more_is_not() {
    let longest = b"\n".repeat(LONGEST_INPUT);
    assert_eq!(run(&longest), b"ff00000000\n".repeat(LONGEST_INPUT));
    for beyond in [1, 2, LONGEST_INPUT] {
        let longer = b"\n".repeat(LONGEST_INPUT + beyond);
        assert_eq!(run(&longer), b"ffffffffff\n");
        let mut out = vec![0; room_for(longer.len())];
        assert_eq!(run_into(&longer, &mut out), Ok(11));
        assert_eq!(&out[..11], b"ffffffffff\n");
    }
}

#[test]
fn a_buffer_too_short_is_left_alone() {
    let longest = b"\n".repeat(LONGEST_INPUT + 1);
    for input in [b"".as_slice(), b"\n", b"0102000000000000\n", &longest] {
        let needed = room_for(input.len());
        for lent in [0, 1, needed / 2, needed - 1] {
            let mut out = vec![0xaa; lent];
            assert_eq!(run_into(input, &mut out), Err(RoomTooShort { lent, needed }));
            assert!(out.iter().all(|byte| *byte == 0xaa));
        }
        let mut out = vec![0xaa; needed];
        let answers = run(input);
        assert_eq!(run_into(input, &mut out), Ok(answers.len()));
        assert_eq!(out[..answers.len()], answers);
    }
}

#[test]
fn the_room_that_is_needed() {
    assert_eq!(room_for(0), 11);
    assert_eq!(room_for(LONGEST_INPUT), 720_907);
    assert_eq!(room_for(usize::MAX), usize::MAX);
    let error = RoomTooShort { lent: 5, needed: 11 };
    assert_eq!(error.to_string(), "a buffer of 5 bytes where 11 are needed");
}

/// A run begins closed, whatever ran before.
#[test]
fn runs_do_not_touch_each_other() {
    run(b"0108000000000000\n0200000000000000\n");
    assert_eq!(run(b"0200000000000000\n"), b"0300000000\n");
    let threads: Vec<_> = (0..4_u64)
        .map(|seed| {
            std::thread::spawn(move || {
                let text = generate::case(seed).text;
                assert_eq!(run(&text), model::run_text(&text));
            })
        })
        .collect();
    for thread in threads {
        thread.join().expect("the same answers in each thread");
    }
}

/// The first cases of the differential test.
#[test]
fn the_library_answers_as_the_model_does() {
    for seed in 1..=27 {
        let text = generate::case(seed).text;
        assert!(run(&text) == model::run_text(&text), "seed {seed} differs");
    }
}
