//! Compares the calls with the program `capvet`, over the samples and over messages of which one bit is changed. The
//! variable `CAPVET_PROGRAM` is the path of the program.

#![cfg(feature = "alloc")]

use capvet::{Kind, Limits, Message, Node, Path, Report, VetError};
use std::path::PathBuf;
use std::process::Command;
use std::{env, fs};

const CONTACTS: &[u8] = include_bytes!("../../../examples/contacts.bin");
const MANY_SEGMENTS: &[u8] = include_bytes!("../../../examples/contacts-many-segments.bin");
const CYCLE: &[u8] = include_bytes!("../../../examples/cycle.bin");
const SHARED: &[u8] = include_bytes!("../../../examples/shared.bin");
const STREAM: &[u8] = include_bytes!("../../../examples/stream-of-four.bin");
const TELEMETRY: &[u8] = include_bytes!("../../../examples/telemetry.bin");

// What the program writes of these bytes to its standard output, and its status.
fn program(test: &str, options: &[&str], bytes: &[u8]) -> (Vec<u8>, Option<i32>) {
    let program = env::var_os("CAPVET_PROGRAM").expect("CAPVET_PROGRAM is the program's path");
    let file = PathBuf::from(env!("CARGO_TARGET_TMPDIR")).join(test);
    fs::write(&file, bytes).expect("the folder can be written");
    let ran = Command::new(program).args(options).arg(file).output();
    let ran = ran.expect("the program runs");
    (ran.stdout, ran.status.code())
}

// What the program should write, by these texts of the messages: a line for each, up to the first without one.
fn expected(
    texts: &[Result<String, VetError>],
    is_accepted: impl Fn(&str) -> bool,
) -> (Vec<u8>, Option<i32>) {
    let lines = texts.iter().map_while(|text| text.as_ref().ok());
    let lines = lines
        .enumerate()
        .map(|(number, text)| format!("message {number}: {text}\n"));
    let all = texts
        .iter()
        .all(|text| matches!(text, Ok(text) if is_accepted(text)));
    (
        lines.collect::<String>().into_bytes(),
        Some(i32::from(!all)),
    )
}

// The text of a verdict, or the error of bytes that hold no frame.
fn verdict<T: ToString>(result: Result<T, VetError>) -> Result<String, VetError> {
    match result {
        Ok(report) => Ok(report.to_string()),
        Err(error @ VetError::Frame(_)) => Err(error),
        Err(refusal) => Ok(refusal.to_string()),
    }
}

// 500 changed messages.
fn changed() -> Vec<Vec<u8>> {
    some_changed(500)
}

// `count` messages, each of them a sample of which one bit after the table is changed.
fn some_changed(count: usize) -> Vec<Vec<u8>> {
    let mut state = 7_u64;
    let mut random = |below: usize| {
        state ^= state << 13;
        state ^= state >> 7;
        state ^= state << 17;
        (state % below as u64) as usize
    };
    let changed = (0..count).map(|_| {
        let mut message = [CONTACTS, MANY_SEGMENTS, TELEMETRY, SHARED][random(4)].to_vec();
        let table = (usize::from(message[0]) + 3) / 2 * 8;
        let at = table + random(message.len() - table);
        message[at] ^= 1 << random(8);
        message
    });
    changed.collect()
}

// Streams: a sample with several messages, a prefix of it, nothing, and the changed messages.
fn streams() -> [Vec<u8>; 4] {
    [
        STREAM.to_vec(),
        STREAM[..3200].to_vec(),
        Vec::new(),
        changed().concat(),
    ]
}

// Options of the program, with the limits that have the same effect.
fn limits() -> [(&'static [&'static str], Limits); 5] {
    let limits = Limits::DEFAULT;
    [
        (&["--strict", "--unamplified"], limits),
        (&["--unamplified"], limits.with_allow_nonstrict(true)),
        (&["--strict"], limits.with_allow_amplified(true)),
        (
            &[],
            limits.with_allow_nonstrict(true).with_allow_amplified(true),
        ),
        (
            &[
                "--strict",
                "--unamplified",
                "--size",
                "392",
                "--words",
                "300",
                "--depth",
                "6",
            ],
            limits
                .with_message_words(392)
                .with_charge(300)
                .with_depth(6),
        ),
    ]
}

#[test]
#[ignore = "CAPVET_PROGRAM has to be the path of the program"]
fn messages_are_accepted_and_refused_as_by_the_program() {
    for (options, limits) in limits() {
        for stream in streams() {
            let messages = capvet::messages(&stream, limits);
            let reports = messages.map(|message| message.map(|message| *message.report()));
            let texts: Vec<_> = reports.map(verdict).collect();
            let expected = expected(&texts, |text| text.starts_with("accepted"));
            let printed = program("vet", &[&["vet"][..], options].concat(), &stream);
            assert_eq!(printed, expected, "{options:?}");
        }
    }
    let known: Vec<_> = capvet::messages(&changed().concat(), Limits::DEFAULT)
        .map(|message| message.is_ok())
        .collect();
    let accepted = known.iter().filter(|is_accepted| **is_accepted).count();
    assert!((50..450).contains(&accepted), "{accepted} of 500");
}

// The report of a message, or why it isn't accepted.
fn vet(message: &[u8], limits: Limits) -> Result<Report, VetError> {
    capvet::vet(message, limits).map(|it| *it.report())
}

// The frames of a stream.
fn frames(mut stream: &[u8]) -> Vec<&[u8]> {
    let mut frames = Vec::new();
    while !stream.is_empty() {
        let length = capvet::frame_length(stream, Limits::DEFAULT).expect("it has a frame");
        let (frame, rest) = stream.split_at(length);
        frames.push(frame);
        stream = rest;
    }
    frames
}

#[test]
#[ignore = "CAPVET_PROGRAM has to be the path of the program"]
fn explanations_are_those_of_the_program() {
    let samples = [CONTACTS, MANY_SEGMENTS, TELEMETRY, STREAM, SHARED, CYCLE];
    let stream = [samples.concat(), some_changed(2000).concat()].concat();
    for (options, limits) in limits() {
        let (mut text, mut known) = (String::new(), Vec::new());
        for frame in frames(&stream) {
            let error = vet(frame, limits).err();
            // (the program ends at a message without a frame)
            if matches!(error, Some(VetError::Frame(_))) {
                continue;
            }
            let number = known.len();
            let verdict = verdict(vet(frame, limits)).expect("it has a frame");
            text += &format!("message {number}: {verdict}\n");
            if let Some(VetError::Refused(refusal)) = error {
                text += &refusal.explain(frame, limits).to_string();
            }
            known.push(frame);
        }
        let options = [&["explain"][..], options].concat();
        let (printed, status) = program("explain", &options, &known.concat());
        assert_eq!(status, Some(1));
        assert!(of_library(&printed) == text, "{options:?}");
    }
}

#[test]
#[ignore = "CAPVET_PROGRAM has to be the path of the program"]
fn objects_have_the_members_of_those_of_the_program() {
    let samples = [CONTACTS, MANY_SEGMENTS, TELEMETRY, STREAM, SHARED, CYCLE];
    let stream = [samples.concat(), some_changed(2000).concat()].concat();
    for (options, limits) in limits() {
        let (mut text, mut known) = (String::new(), Vec::new());
        for frame in frames(&stream) {
            let object = match vet(frame, limits) {
                Ok(report) => format!(
                    "\"verdict\":\"accepted\",{}",
                    from(&report.to_json(), "\"charge\"")
                ),
                // (the program ends at a message without a frame)
                Err(VetError::Frame(_)) => continue,
                Err(error) => from(&error.to_json(), "\"verdict\"").to_string(),
            };
            text += &format!("{{\"message\":{},{object}\n", known.len());
            known.push(frame);
        }
        let options = [&["vet", "--json"][..], options].concat();
        let (printed, status) = program("json", &options, &known.concat());
        assert_eq!(status, Some(1));
        assert!(printed == text.into_bytes(), "{options:?}");
    }
}

// A text from this part on.
fn from<'t>(text: &'t str, part: &str) -> &'t str {
    &text[text.find(part).expect("it is there")..]
}

// The lines of the program, without those that the library doesn't return. It explains one message by its limits: it knows no
// byte of an input, and doesn't say why `filter` refuses a message that these limits accept.
fn of_library(printed: &[u8]) -> String {
    let text = std::str::from_utf8(printed).expect("the lines are UTF-8");
    let (mut lines, mut is_of_filter) = (String::new(), false);
    for line in text.lines() {
        is_of_filter = line.starts_with("  filter, ") || is_of_filter && line.starts_with("  ");
        if !is_of_filter {
            lines += line
                .split_once(", byte ")
                .map_or(line, |(message, _)| message);
            lines += "\n";
        }
    }
    lines
}

#[test]
fn separate_segments_are_vetted_as_their_frame() {
    for (_, limits) in limits() {
        for message in changed()
            .iter()
            .map(Vec::as_slice)
            .chain([STREAM, TELEMETRY])
        {
            let length = capvet::frame_length(message, Limits::DEFAULT).expect("it has a frame");
            let message = &message[..length];
            let segments: Vec<_> = capvet::segments(message).expect("it has a frame").collect();
            match (
                capvet::vet(message, limits),
                capvet::vet_segments(&segments, limits),
            ) {
                (Ok(framed), Ok(separate)) => {
                    assert_eq!(framed.report(), separate.report());
                    // (what fills a table up may differ)
                    let separate = separate.as_message().segments();
                    assert!(separate.eq(framed.segments()));
                }
                (framed, separate) => {
                    assert_eq!(framed.err(), separate.err().map(VetError::from));
                }
            }
        }
    }
}

#[test]
#[ignore = "CAPVET_PROGRAM has to be the path of the program"]
fn segments_are_those_of_the_program() {
    let changed = changed();
    let mut text = String::new();
    for (number, message) in changed.iter().enumerate() {
        let segments: Vec<_> = capvet::segments(message).expect("it has a frame").collect();
        let words: Vec<_> = segments.iter().map(|segment| segment.len() / 8).collect();
        let sum: usize = words.iter().sum();
        text += &format!("message {number}: segments {} words {sum}\n", words.len());
        for (index, words) in words.iter().enumerate() {
            text += &format!("segment {index}: {words}\n");
        }
        let root = segments[0][..8].iter().map(|byte| format!("{byte:02x}"));
        text += &format!("root {}\n", root.collect::<String>());
    }
    let (printed, status) = program("segments", &["segments"], &changed.concat());
    assert_eq!(status, Some(0));
    assert!(printed == text.into_bytes());
}

#[test]
#[ignore = "CAPVET_PROGRAM has to be the path of the program"]
fn a_word_that_is_used_twice_is_found_as_by_the_program() {
    let changed = changed();
    for (options, limits) in limits() {
        let texts: Vec<_> = changed
            .iter()
            .map(|it| verdict(vet(it, limits.with_exclusive(true))))
            .collect();
        let expected = expected(&texts, |text| text.starts_with("accepted"));
        assert!(texts.iter().flatten().any(|text| text.contains("Overlap")));
        let options = [&["vet", "--exclusive"][..], options].concat();
        let printed = program("exclusive", &options, &changed.concat());
        assert_eq!(printed, expected, "{options:?}");
    }
}

#[test]
#[ignore = "CAPVET_PROGRAM has to be the path of the program"]
fn messages_are_canonical_as_for_the_program() {
    let changed = changed();
    let copies = [CONTACTS, TELEMETRY, SHARED].map(framed_copy);
    let messages = [&changed[..100], &copies].concat();
    for (options, limits) in limits() {
        let results = messages
            .iter()
            .map(|it| capvet::vet(it, limits).map(|it| it.is_canonical()));
        let texts: Vec<_> = results
            .map(|result| result.map(|it| if it { "canonical" } else { "not canonical" }))
            .map(verdict)
            .collect();
        let expected = expected(&texts, |text| text == "canonical");
        let printed = program(
            "check",
            &[&["check"][..], options].concat(),
            &messages.concat(),
        );
        assert_eq!(printed, expected, "{options:?}");
    }
}

// The canonical form of a message, with a table.
fn framed_copy(message: &[u8]) -> Vec<u8> {
    let message = capvet::vet(message, Limits::DEFAULT).expect("it is accepted");
    framed(&message.canonical().expect("it has a form"))
}

// One segment with its table.
fn framed(words: &[u8]) -> Vec<u8> {
    let size = (words.len() as u32 / 8).to_le_bytes();
    [&[0; 4][..], &size, words].concat()
}

#[test]
#[ignore = "CAPVET_PROGRAM has to be the path of the program"]
fn canonical_forms_are_those_of_the_program() {
    let changed = changed();
    let options = ["canon", "--strict", "--unamplified"];
    let (mut forms, mut refused) = (0, 0);
    for message in changed
        .iter()
        .take(150)
        .map(Vec::as_slice)
        .chain([STREAM, SHARED])
    {
        let limits = Limits::DEFAULT;
        let length = capvet::frame_length(message, limits).expect("it has a frame");
        let message = &message[..length];
        let (printed, status) = program("canon", &options, message);
        match capvet::vet(message, limits).map(|it| it.canonical()) {
            Ok(Ok(words)) => {
                assert_eq!((printed, status), (framed(&words), Some(0)));
                assert_eq!(capvet::is_canonical_words(&words, limits), Ok(true));
                forms += 1;
            }
            // (it is refused, or has a capability)
            _ => {
                assert_eq!((printed, status), (Vec::new(), Some(1)));
                refused += 1;
            }
        }
    }
    assert!(
        forms > 20 && refused > 20,
        "{forms} forms, {refused} refused"
    );
}

// The node at a path, which is that of bytes that weren't vetted too.
fn node<'b>(message: Message<'b>, path: &str) -> Node<'b> {
    let path: Path = path.parse().expect(path);
    let node = message.get(&path);
    let limits = Limits::DEFAULT
        .with_allow_nonstrict(true)
        .with_allow_amplified(true);
    assert_eq!(capvet::peek(message.bytes(), &path, limits), Ok(node));
    node.expect("each path of the dump leads to a node")
}

// The lines of a node, of its words and of the nodes below it.
fn dump(message: Message<'_>, path: &str, label: &str, level: usize) -> String {
    let (node, indent) = (node(message, path), "  ".repeat(level));
    let mut text = format!("{indent}{label} {node}\n");
    let (words, children) = match node.kind() {
        Kind::Struct {
            data_words,
            pointers,
            ..
        } => (('d', u64::from(data_words)), ('p', pointers)),
        Kind::Values { .. } => (('w', (node.data().len() as u64 + 7) / 8), ('i', 0)),
        Kind::Pointers { count, .. } => (('w', 0), ('i', count)),
        Kind::Structs {
            data_words: 0,
            pointers: 0,
            ..
        } => (('w', 0), ('i', 0)),
        Kind::Structs { count, .. } => (('w', 0), ('i', count)),
        _ => (('w', 0), ('i', 0)),
    };
    for i in 0..words.1 {
        text += &format!(
            "{indent}  {}{i} {:016x}\n",
            words.0,
            word(&node, i as usize).swap_bytes()
        );
    }
    let elements: Vec<_> = node.elements().collect();
    for i in 0..children.1 {
        let step = format!("{}{i}", children.0);
        let below = format!("{}/{step}", path.trim_end_matches('/'));
        if let Some(element) = elements.get(i as usize) {
            assert_eq!(*element, self::node(message, &below));
        }
        text += &dump(message, &below, &step, level + 1);
    }
    text
}

// The word `i` of a node's own, of which bits after the last value are zero.
fn word(node: &Node, i: usize) -> u64 {
    if let Kind::Values { element: 1, .. } = node.kind() {
        let bits = (0..64).map(|bit| u64::from(node.bool_at(64 * i + bit) == Some(true)) << bit);
        return bits.sum();
    }
    let bytes = (0..8).map(|byte| u64::from(node.u8_at(8 * i + byte).unwrap_or(0)) << (8 * byte));
    let word = bytes.sum();
    assert!(node.u64_at(i).map_or(true, |it| it == word));
    word
}

#[test]
#[ignore = "CAPVET_PROGRAM has to be the path of the program"]
fn nodes_are_those_of_the_program() {
    let stream = [STREAM.to_vec(), MANY_SEGMENTS.to_vec(), changed().concat()].concat();
    for (options, limits) in limits() {
        let mut text = String::new();
        let mut refused = false;
        for (number, message) in capvet::messages(&stream, limits).enumerate() {
            match message {
                Ok(message) => {
                    text += &format!("message {number}: {}\n", message.report());
                    text += &dump(message, "/", "root", 0);
                }
                Err(VetError::Frame(_)) => refused = true,
                Err(error) => {
                    text += &format!("message {number}: {error}\n");
                    refused = true;
                }
            }
        }
        let expected = (text.into_bytes(), Some(i32::from(refused)));
        let printed = program("dump", &[&["dump"][..], options].concat(), &stream);
        assert!(printed == expected, "{options:?}");
    }
}
