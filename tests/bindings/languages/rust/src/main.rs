//! `say FILE WORDS CHARGE DEPTH FLAGS EXCLUSIVE` writes a JSON object for each message of a file, as `say.c` does, by the crate
//! `capvet`.

use capvet::{FrameError, Limits, Message, Refusal, VetError};
use std::fmt::Display;
use std::io::Write;

fn quoted(text: impl Display) -> String {
    format!("\"{}\"", text.to_string().replace('\n', "\\n"))
}

fn broken(error: &FrameError) -> String {
    let number = match error {
        FrameError::NoMessage => "\"required\":8".into(),
        FrameError::Truncated { required, .. } => format!("\"required\":{required}"),
        FrameError::TooManySegments { count, .. } => format!("\"segments\":{count}"),
        FrameError::TooLarge { words, .. } => format!("\"words\":{words}"),
        FrameError::Trailing { bytes, .. } => format!("\"trailing_bytes\":{bytes}"),
        other => panic!("{other}"),
    };
    format!(
        "\"verdict\":\"broken\",\"reason\":\"{}\",{number}",
        error.name()
    )
}

fn refused(refusal: &Refusal, bytes: &[u8], limits: Limits) -> String {
    let mut text = format!(
        "\"length\":{},\"verdict\":\"refused\",\"reason\":\"{}\"",
        refusal.length, refusal.reason
    );
    if let Some(pointer) = refusal.pointer {
        let path = refusal.path(bytes, limits).expect("the pointer has a path");
        text += &format!(
            ",\"segment\":{},\"word\":{},\"pointer\":{},\"path\":{}",
            pointer.position.segment,
            pointer.position.word,
            pointer.number,
            quoted(path)
        );
    }
    // (the crate finds one for other reasons too)
    if refusal.reason == capvet::Reason::Overlap {
        if let Some(earlier) = refusal.earlier_path(bytes, limits) {
            text += &format!(",\"earlier_path\":{}", quoted(earlier));
        }
    }
    format!(
        "{text},\"explain\":{}",
        quoted(refusal.explain(bytes, limits))
    )
}

fn differing(message: &Message<'_>) -> String {
    let it = match message.first_difference() {
        Some(it) => it,
        None => return String::new(),
    };
    let path = it.path(message).map(|path| format!(",\"path\":{}", quoted(path)));
    format!(
        ",\"difference\":{{\"reason\":\"{}\",\"segment\":{},\"word\":{},\"pointers\":{}{}}}",
        it.reason,
        it.position.segment,
        it.position.word,
        it.pointers,
        path.unwrap_or_default()
    )
}

fn accepted(message: &Message<'_>) -> String {
    let report = message.report();
    let canonical = match message.canonical() {
        Ok(words) => {
            let (low, high) = words.iter().fold((1u32, 0u32), |(low, high), byte| {
                let low = (low + u32::from(*byte)) % 65521;
                (low, (high + low) % 65521)
            });
            format!(",\"canonical\":{}", high << 16 | low)
        }
        Err(_) => String::new(),
    };
    format!(
        "\"length\":{},\"verdict\":\"accepted\",\"segments\":{},\"words\":{},\"charge\":{},\"depth\":{},\"pointers\":{},\
         \"capabilities\":{}{canonical},\"is_canonical\":{}{}",
        report.length,
        report.segments,
        report.words,
        report.charge,
        report.depth,
        report.pointers,
        report.capabilities,
        message.is_canonical(),
        differing(message)
    )
}

fn said(bytes: &[u8], limits: Limits) -> String {
    match capvet::vet(bytes, limits) {
        Ok(message) => accepted(&message),
        Err(VetError::Frame(error)) => broken(&error),
        Err(VetError::Refused(refusal)) => refused(&refusal, bytes, limits),
        Err(other) => panic!("{other}"),
    }
}

fn main() {
    let words: Vec<String> = std::env::args().collect();
    let number = |at: usize| words[at].parse::<u64>().expect("a number");
    let limits = Limits::new(number(2), number(3), number(4) as u32)
        .expect("limits")
        .with_allow_nonstrict(number(5) & 1 != 0)
        .with_allow_amplified(number(5) & 2 != 0)
        .with_exclusive(number(6) == 1);
    let file = std::fs::read(&words[1]).expect("a file");
    let mut out = std::io::BufWriter::new(std::io::stdout().lock());
    let mut rest = &file[..];
    let mut message = 0;
    while let [a, b, c, d, after @ ..] = rest {
        let length = u32::from_le_bytes([*a, *b, *c, *d]) as usize;
        let (bytes, next) = after.split_at(length);
        // (a buffer of its own, so that a read after it is seen by checks of memory)
        writeln!(
            out,
            "{{\"message\":{message},{}}}",
            said(&bytes.to_vec(), limits)
        )
        .expect("output");
        (rest, message) = (next, message + 1);
    }
}
