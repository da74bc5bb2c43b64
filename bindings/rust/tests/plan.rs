//! The plan of a text.

use bootplan::{output_size, plan, Refusal};

const TEXT: &[u8] = include_bytes!("../../../crates/bootplan/stdin");
const PLAN: &[u8] = include_bytes!("../../../crates/bootplan/stdout");

fn refused(text: &[u8]) -> Refusal {
    let found = vec![0x5a; output_size(text.len())];
    let mut output = found.clone();
    let refusal = plan(text, &mut output).unwrap_err();
    assert_eq!(output, found);
    refusal
}

#[test]
fn worked_example() {
    let mut output = vec![0x5a; output_size(TEXT.len())];
    let written = plan(TEXT, &mut output).unwrap();
    assert_eq!(&output[..written], PLAN);
    assert!(output[written..].iter().all(|&byte| byte == 0x5a));
}

#[test]
fn refusals() {
    assert_eq!(refused(b""), Refusal(2));
    assert_eq!(refused(b"shape"), Refusal(1));
    assert_eq!(refused(&vec![b'\n'; 65_537]), Refusal(3));
    let outside = String::from_utf8_lossy(TEXT).replace("file\t200000", "file\t20000");
    assert_eq!(
        refused(outside.replace("mem\t0", "mem\t100000").as_bytes()),
        Refusal(10)
    );
    assert_eq!(refused(&TEXT[..TEXT.len() - 1]), Refusal(1));
}

#[test]
fn refused_request_stands_in_its_place() {
    let text = [TEXT, b"get\t-\t0\tl\tt\t-\n"].concat();
    let mut output = vec![0; output_size(text.len())];
    let written = plan(&text, &mut output).unwrap();
    let lines = String::from_utf8_lossy(&output[..written]).into_owned();
    assert_eq!(lines.lines().nth(3), Some("no\t22"));
}

#[test]
fn short_output() {
    let mut output = vec![0x5a; output_size(TEXT.len()) - 1];
    assert_eq!(plan(TEXT, &mut output), Err(Refusal::NO_ROOM));
    assert!(output.iter().all(|&byte| byte == 0x5a));
    assert_eq!(plan(TEXT, &mut []), Err(Refusal::NO_ROOM));
}

#[test]
fn output_of_every_text() {
    assert_eq!(output_size(usize::MAX), output_size(65_536));
    assert!(output_size(0) <= output_size(TEXT.len()));
}

#[test]
fn every_refusal_has_its_words() {
    for number in (1..=29).chain(253..=255) {
        assert_ne!(Refusal(number).to_string(), "", "{number}");
    }
    assert_eq!(Refusal::NO_ROOM.to_string(), "a lent buffer is too short");
    assert_eq!(Refusal(22).to_string(), "the length is 0");
}
