//! The numbers against those of the header, and the answers against what is known of the samples.

use crate::calls::{
    raw_limits, Answer, Form, ALLOW_AMPLIFIED, ALLOW_NONSTRICT, EXPLANATION_BOUND, FORM_PREFIX,
    FORM_WORDS, NO_REPORT, OVERLAP_BOUND,
};
use crate::{
    frame_length, is_canonical_words, messages, vet, vet_exclusive, vet_prefix, vet_segments,
    vet_words, CanonicalError, ExclusiveError, FrameError, Limits, MessageBuf, Pointer, Position,
    Reason, Report, VetError,
};

const HEADER: &str = include_str!("../../../include/capvet.h");
const CONTACTS: &[u8] = include_bytes!("../../../examples/contacts.bin");
const MANY_SEGMENTS: &[u8] = include_bytes!("../../../examples/contacts-many-segments.bin");
const TELEMETRY: &[u8] = include_bytes!("../../../examples/telemetry.bin");
const STREAM: &[u8] = include_bytes!("../../../examples/stream-of-four.bin");
const CONTACTS_COPY: &[u8] = include_bytes!("../../../examples/canonical/contacts.bin");
const TELEMETRY_COPY: &[u8] = include_bytes!("../../../examples/canonical/telemetry.bin");
const SHARED: &[u8] = include_bytes!("../../../examples/shared.bin");
const NULL: [u8; 16] = [0, 0, 0, 0, 1, 0, 0, 0, 0, 0, 0, 0, 0, 0, 0, 0];
const CYCLE: [u8; 16] = [0, 0, 0, 0, 1, 0, 0, 0, 0xfc, 0xff, 0xff, 0xff, 0, 0, 1, 0];

// The header without its comments.
fn header() -> String {
    let parts = HEADER.split("/*");
    let code = parts.map(|part| part.split_once("*/").map_or(part, |(_, code)| code));
    code.collect()
}

// The text between two others.
fn between<'t>(text: &'t str, start: &str, end: &str) -> &'t str {
    let rest = text.split_once(start).expect(start).1;
    rest.split_once(end).expect(end).0
}

// The answers of the header, each with its number.
fn answers() -> Vec<(String, u32)> {
    let code = header();
    let members = between(&code, "CAPVET_OK = 0,", "}").split(',');
    let answer = |member: &str| {
        let (name, number) = member.trim().strip_prefix("CAPVET_")?.split_once(" = ")?;
        // (the last member, in hex, gives the enum its size)
        Some((name.to_owned(), number.parse().ok()?))
    };
    members.filter_map(answer).collect()
}

// A constant's name as a variant's: `PAD_IS_FAR` is `PadIsFar`.
fn variant(name: &str) -> String {
    name.split('_')
        .map(|word| word[..1].to_owned() + &word[1..].to_lowercase())
        .collect()
}

// The answers of the header that are no reason of a refusal at a pointer.
const OTHERS: [(&str, Answer); 12] = [
    ("NO_MESSAGE", Answer::NO_MESSAGE),
    ("TOO_MANY_SEGMENTS", Answer::TOO_MANY_SEGMENTS),
    ("TOO_LARGE", Answer::TOO_LARGE),
    ("TRUNCATED", Answer::TRUNCATED),
    ("TRAILING", Answer::TRAILING),
    ("BAD_LIMITS", Answer::BAD_LIMITS),
    ("BAD_SEGMENT", Answer(12)),
    ("BUFFER_TOO_SMALL", Answer::BUFFER_TOO_SMALL),
    ("BAD_PATH", Answer::BAD_PATH),
    ("NOT_CANONICAL", Answer::NOT_CANONICAL),
    ("HAS_CAPABILITY", Answer(17)),
    ("NO_NODE", Answer::NO_NODE),
];

#[test]
fn answers_are_those_of_the_header() {
    let mut here: Vec<_> = OTHERS
        .iter()
        .map(|(name, answer)| (variant(name), answer.0))
        .chain(
            Reason::ALL
                .iter()
                .map(|reason| (reason.name().to_owned(), reason.code())),
        )
        .collect();
    here.sort_by_key(|(_, number)| *number);
    let mut of_header: Vec<_> = answers()
        .into_iter()
        .map(|(name, number)| (variant(&name), number))
        .collect();
    of_header.sort_by_key(|(_, number)| *number);
    assert_eq!(here, of_header);
    for reason in Reason::ALL {
        assert_eq!(format!("{reason:?}"), reason.to_string());
        assert_eq!(reason.name().parse(), Ok(*reason));
    }
    let unknown = "Ok".parse::<Reason>().expect_err("it is no reason");
    assert_eq!(unknown.to_string(), "no such reason");
}

#[test]
fn every_other_answer_is_no_acceptance() {
    for number in 1..100 {
        let error = std::panic::catch_unwind(|| VetError::of(Answer(number), &NO_REPORT));
        let reason = Reason::ALL.iter().find(|it| it.code() == number);
        match (error, reason) {
            (Ok(VetError::Frame(_)), None) => assert!(matches!(number, 1..=5), "{number}"),
            (Ok(VetError::Refused(refusal)), Some(reason)) => assert_eq!(refusal.reason, *reason),
            // (no call that vets has these)
            (error, reason) => assert!(error.is_err() && reason.is_none() && number > 5),
        }
    }
}

#[test]
fn limits_are_those_of_the_header() {
    let raw = raw_limits(&Limits::DEFAULT, Form::Whole);
    for line in [
        format!(
            "#define CAPVET_MAX_MESSAGE_WORDS UINT64_C({})",
            Limits::MAX_MESSAGE_WORDS
        ),
        format!("#define CAPVET_MAX_CHARGE UINT64_C({})", Limits::MAX_CHARGE),
        format!("#define CAPVET_MAX_DEPTH {}", Limits::MAX_DEPTH),
        format!("#define CAPVET_SLACK {}", Limits::SLACK),
        format!("#define CAPVET_EXPLANATION_BOUND {EXPLANATION_BOUND}"),
        format!("#define CAPVET_OVERLAP_BOUND {OVERLAP_BOUND}"),
        format!("#define CAPVET_ALLOW_NONSTRICT {ALLOW_NONSTRICT:#x}u"),
        format!("#define CAPVET_ALLOW_AMPLIFIED {ALLOW_AMPLIFIED:#x}u"),
        format!("#define CAPVET_FORM_PREFIX {FORM_PREFIX}u"),
        format!("#define CAPVET_FORM_WORDS {FORM_WORDS}u"),
        "#define CAPVET_FORM_WHOLE 0u".to_string(),
        format!(
            "#define CAPVET_LIMITS_INIT {{ {}, {}, {}, {}, CAPVET_FORM_WHOLE, {}, {{ 0, 0, 0, 0, 0, 0 }} }}",
            raw.message_words, raw.charge, raw.depth, raw.flags, raw.padding
        ),
    ] {
        assert!(HEADER.contains(&line), "{line}");
    }
    assert_eq!((raw.form, raw.reserved), (0, [0; 6]));
    assert_eq!(Limits::default(), Limits::DEFAULT);
}

#[test]
fn each_limit_is_passed_on() {
    let limits = Limits::new(1, 2, 3).expect("these are allowed");
    let raw = raw_limits(&limits, Form::Whole);
    assert_eq!((raw.message_words, raw.charge, raw.depth), (1, 2, 3));
    for (limits, form, expected) in [
        (limits, Form::Whole, (0, 0)),
        (limits, Form::Prefix, (0, FORM_PREFIX)),
        (limits, Form::Words, (0, FORM_WORDS)),
        (
            limits.with_allow_nonstrict(true),
            Form::Whole,
            (ALLOW_NONSTRICT, 0),
        ),
        (
            limits.with_allow_amplified(true),
            Form::Whole,
            (ALLOW_AMPLIFIED, 0),
        ),
    ] {
        let raw = raw_limits(&limits, form);
        assert_eq!((raw.flags, raw.form), expected);
        let none = limits
            .with_allow_nonstrict(false)
            .with_allow_amplified(false);
        assert_eq!(none, self::limits(1, 2, 3));
    }
}

fn limits(message_words: u64, charge: u64, depth: u32) -> Limits {
    Limits::new(message_words, charge, depth).expect("these are allowed")
}

#[test]
fn a_number_above_its_maximum_is_an_error() {
    let text = |numbers: (u64, u64, u32)| {
        let error = Limits::new(numbers.0, numbers.1, numbers.2).expect_err("it is above");
        error.to_string()
    };
    let (words, charge) = (Limits::MAX_MESSAGE_WORDS, Limits::MAX_CHARGE);
    for (numbers, name) in [
        (
            (words + 1, charge, 256),
            "message_words is 268435457, at most 268435456 is allowed",
        ),
        (
            (0, charge + 1, 256),
            "charge is 268435457, at most 268435456 is allowed",
        ),
        ((0, 0, 257), "depth is 257, at most 256 is allowed"),
    ] {
        assert_eq!(text(numbers), name);
    }
    for call in [
        || Limits::DEFAULT.with_message_words(u64::MAX),
        || Limits::DEFAULT.with_charge(u64::MAX),
        || Limits::DEFAULT.with_depth(u32::MAX),
    ] {
        std::panic::catch_unwind(call).expect_err("it is above");
    }
}

#[test]
fn the_library_takes_every_limit() {
    let none = limits(0, 0, 0);
    let most = limits(
        Limits::MAX_MESSAGE_WORDS,
        Limits::MAX_CHARGE,
        Limits::MAX_DEPTH,
    );
    let most = most.with_allow_nonstrict(true).with_allow_amplified(true);
    assert_eq!(most, Limits::LARGEST);
    assert_eq!(frame_length(&NULL, most), Ok(16));
    assert!(vet(&NULL, most.with_exclusive(true)).is_ok());
    let large = FrameError::TooLarge { words: 1 };
    assert_eq!(frame_length(&NULL, none), Err(large));
    assert_eq!(vet(&NULL, none), Err(large.into()));
    assert!(most.exclusive() || most.with_exclusive(true).exclusive());
}

#[test]
fn a_frame_is_at_most_as_long_as_its_bound() {
    // 512 segments, the first of which has all words.
    let limits = Limits::DEFAULT.with_message_words(3);
    let frame = framed(&[&[&[0, 0, 0][..]], &[&[][..]; 511][..]].concat());
    assert_eq!(frame.len() as u64, limits.frame_bound());
    assert_eq!(frame_length(&frame, limits), Ok(frame.len()));
}

#[test]
fn samples_are_accepted() {
    for (bytes, segments, line) in [
        (
            CONTACTS,
            1,
            "accepted charge 391 depth 11 pointers 125 caps 0",
        ),
        (
            MANY_SEGMENTS,
            105,
            "accepted charge 495 depth 11 pointers 125 caps 0",
        ),
        (
            TELEMETRY,
            1,
            "accepted charge 234 depth 4 pointers 69 caps 0",
        ),
    ] {
        let message = vet(bytes, Limits::DEFAULT).expect("the sample is accepted");
        let report = message.report();
        assert_eq!(
            (report.to_string(), report.segments),
            (line.to_owned(), segments)
        );
        assert_eq!(
            (report.length, report.first_capability),
            (bytes.len(), None)
        );
        let parts = message.segments();
        assert_eq!(parts.len() as u32, segments);
        let words: usize = parts.map(|it| it.len() / 8).sum();
        assert_eq!(report.words, words as u64);
        assert_eq!(frame_length(bytes, Limits::DEFAULT), Ok(bytes.len()));
        assert!(!message.is_canonical());
        assert_eq!(message.bytes(), bytes);
        assert_eq!(MessageBuf::from(message).as_message(), message);
    }
}

#[test]
fn a_reader_has_limits_for_each_reading() {
    let report = *vet(CONTACTS, Limits::DEFAULT).expect("accepted").report();
    assert_eq!((report.words, report.reader_nesting()), (392, 23));
    assert_eq!(report.reader_words(1), 3 * 391 + 2);
    assert_eq!(report.reader_words(u32::MAX), u64::from(u32::MAX) * 1175);
    // (words that no pointer reaches count too)
    let long = framed(&[&[0; 100]]);
    let report = *vet(&long, Limits::DEFAULT).expect("accepted").report();
    assert_eq!((report.reader_words(2), report.reader_nesting()), (200, 1));
}

#[test]
fn samples_use_no_word_twice() {
    let exclusive = Limits::DEFAULT.with_exclusive(true);
    for bytes in [CONTACTS, MANY_SEGMENTS, TELEMETRY] {
        let message = vet(bytes, Limits::DEFAULT).expect("the sample is accepted");
        let required = match vet_exclusive(bytes, Limits::DEFAULT, &mut []) {
            Err(ExclusiveError::BufferTooSmall { required, .. }) => required,
            other => panic!("marks take a buffer: {other:?}"),
        };
        assert!(required <= bytes.len() / 512 + 1);
        let mut marks = vec![u64::MAX; required + 1];
        let short = vet_exclusive(bytes, Limits::DEFAULT, &mut marks[..required - 1]);
        assert_eq!(short, Err(ExclusiveError::BufferTooSmall { required }));
        assert!(marks.iter().all(|it| *it == u64::MAX));
        let found = vet_exclusive(bytes, Limits::DEFAULT, &mut marks);
        assert_eq!((found, marks[required]), (Ok(message), u64::MAX));
        assert_eq!(vet(bytes, exclusive), Ok(message));
    }
    for bytes in [&CYCLE[..], &NULL[..9], &[], &[&NULL[..], &[7]].concat()] {
        let error = vet(bytes, Limits::DEFAULT).expect_err("it is refused");
        for marks in [&mut [][..], &mut [u64::MAX]] {
            let found = vet_exclusive(bytes, Limits::DEFAULT, marks);
            assert_eq!(found, Err(ExclusiveError::NotAccepted(error)));
        }
        assert_eq!(vet(bytes, exclusive), Err(error));
    }
}

#[test]
fn exclusive_limits_hold_for_each_form() {
    let limits = Limits::DEFAULT.with_exclusive(true);
    let overlap = "refused Overlap at 0:2 pointers 3";
    let more = [SHARED, SHARED, &NULL].concat();
    let (error, rest) = match vet_prefix(&more, limits) {
        Err(error) => (error, &more[error.length()..]),
        other => panic!("{other:?}"),
    };
    assert_eq!(
        (error.to_string(), rest),
        (overlap.into(), &more[SHARED.len()..])
    );
    let texts: Vec<_> = messages(&more, limits)
        .map(|it| text(it.map(|it| *it.report())))
        .collect();
    assert_eq!(texts[..2], [overlap, overlap]);
    assert!(texts[2].starts_with("accepted"));
    for found in [
        vet_words(&SHARED[8..], limits),
        vet_segments(&[&SHARED[8..]], limits),
        MessageBuf::vet(SHARED.to_vec(), limits),
    ] {
        let refused = found.expect_err("a word is used twice");
        assert_eq!(refused.to_string(), overlap);
        let paths = [refused.path(), refused.earlier_path()];
        assert_eq!(
            paths.map(|it| it.expect("a path").to_string()),
            ["/p1", "/p0"]
        );
        let lines = refused.explain().to_string();
        assert!(lines.starts_with(
            "  path /p1\n  byte 24 of the message\n  pointer 0000000001000000 struct, offset 0"
        ));
        assert!(lines.ends_with("\n  first used by /p0 at 0:1\n"));
    }
}

// The text of a verdict.
fn text<T: ToString, E: ToString>(verdict: Result<T, E>) -> String {
    verdict.map_or_else(|it| it.to_string(), |it| it.to_string())
}

#[test]
fn copies_are_those_of_the_samples() {
    for (bytes, copy) in [
        (CONTACTS, CONTACTS_COPY),
        (MANY_SEGMENTS, CONTACTS_COPY),
        (TELEMETRY, TELEMETRY_COPY),
    ] {
        let message = vet(bytes, Limits::DEFAULT).expect("the sample is accepted");
        assert_eq!(message.canonical().as_deref(), Ok(copy));
        let mut out = vec![0xee; copy.len() + 1];
        let required = copy.len();
        for length in 0..copy.len() {
            assert_eq!(
                message.canonical_into(&mut out[..length]),
                Err(CanonicalError::BufferTooSmall { required })
            );
        }
        assert!(out.iter().all(|it| *it == 0xee));
        assert_eq!(message.canonical_into(&mut out), Ok(copy.len()));
        assert_eq!(out, [copy, &[0xee]].concat());
        assert_eq!(is_canonical_words(copy, Limits::DEFAULT), Ok(true));
        let form = vet_words(copy, Limits::DEFAULT).expect("the form is accepted");
        assert!(form.as_message().is_canonical());
        assert_eq!(form.as_message().canonical().as_deref(), Ok(copy));
    }
}

// The form of a message of shared objects is amplified, and longer than the message.
#[test]
fn a_form_is_canonical_within_the_limits_of_its_message() {
    // A list of 10 pointers, all of them to one struct of 990 words.
    let pointers = (0..10).map(|at| ((9 - at) << 2) | (990 << 32));
    let words = [1 | ((6 | (10 << 3)) << 32)].into_iter().chain(pointers);
    let words: Vec<u64> = words.chain([7; 990]).collect();
    let limits = limits(1001, 9910, 2).with_allow_amplified(true);
    let bytes = framed(&[&words]);
    let message = vet(&bytes, limits).expect("it is accepted");
    let form = message.canonical().expect("it has no capability");
    assert_eq!(form.len(), 8 * 9911);
    assert_eq!(is_canonical_words(&form, limits), Ok(true));
    assert_eq!(
        is_canonical_words(&form, limits.with_allow_amplified(false)),
        Ok(true)
    );
    let error = is_canonical_words(&form, limits.with_message_words(9911).with_charge(9909));
    assert!(matches!(error, Err(VetError::Refused(it)) if it.reason == Reason::WordLimit));
    assert_eq!(is_canonical_words(&words_of(&bytes), limits), Ok(false));
    let most = Limits::DEFAULT.with_charge(Limits::MAX_CHARGE).of_copies();
    assert_eq!(most.message_words(), Limits::MAX_MESSAGE_WORDS);
}

// A message of one segment without its table.
fn words_of(frame: &[u8]) -> Vec<u8> {
    frame[8..].to_vec()
}

#[test]
fn no_text_is_twice_in_a_chain_of_sources() {
    use std::error::Error;
    let error = vet(&CYCLE, Limits::DEFAULT).expect_err("it is refused");
    let owned = MessageBuf::vet(CYCLE.to_vec(), Limits::DEFAULT).expect_err("it is refused");
    let errors: [Box<dyn Error>; 3] = [
        error.into(),
        owned.into(),
        ExclusiveError::NotAccepted(error).into(),
    ];
    for error in errors {
        assert_eq!(error.to_string(), "refused DepthLimit at 0:0 pointers 65");
        assert!(error.source().is_none());
    }
}

#[test]
fn the_first_capability_is_reported() {
    // A struct of two pointers, the second of them a capability.
    let mut message = [0; 32];
    message[4] = 3;
    message[14] = 2;
    message[24] = 3;
    let position = Position {
        segment: 0,
        word: 2,
    };
    let message = vet(&message, Limits::DEFAULT).expect("the message is accepted");
    let report = message.report();
    assert_eq!(
        (
            report.capabilities,
            report.pointers,
            report.first_capability
        ),
        (1, 3, Some(position))
    );
    assert!(!message.is_canonical());
    let none = message.canonical_into(&mut []).expect_err("no copy");
    assert_eq!(none.to_string(), "HasCapability at 0:2");
    assert_eq!(message.canonical().map_err(CanonicalError::from), Err(none));
}

#[test]
fn a_refusal_names_a_pointer_or_none() {
    let pointer = |bytes: &[u8]| match vet(bytes, Limits::DEFAULT) {
        Err(VetError::Refused(refusal)) => refusal.pointer,
        other => panic!("{other:?}"),
    };
    let position = Position {
        segment: 0,
        word: 0,
    };
    let number = 65;
    assert_eq!(pointer(&CYCLE), Some(Pointer { position, number }));
    assert_eq!(pointer(&[0; 8]), None);
    let many = framed(&[&[&[0][..]], &[&[][..]; 511][..]].concat());
    assert_eq!(pointer(&many), None);
}

#[test]
fn refusals_read_as_in_the_program() {
    let line =
        |bytes: &[u8], limits: Limits| vet(bytes, limits).expect_err("it is refused").to_string();
    let limits = Limits::DEFAULT;
    assert_eq!(
        line(CONTACTS, limits.with_charge(100)),
        "refused WordLimit at 0:21 pointers 22"
    );
    assert_eq!(
        line(CONTACTS, limits.with_depth(3)),
        "refused DepthLimit at 0:7 pointers 3"
    );
    assert_eq!(
        line(CONTACTS, limits.with_message_words(391)),
        "TooLarge 392"
    );
    assert_eq!(
        line(&CYCLE, limits),
        "refused DepthLimit at 0:0 pointers 65"
    );
    assert_eq!(
        line(&[0, 2, 0, 0, 0, 0, 0, 0], limits),
        "TooManySegments 513"
    );
    assert_eq!(line(&[], limits), "NoMessage");
    assert_eq!(line(&NULL[..9], limits), "Truncated, 16 bytes are required");
    assert_eq!(line(&[0; 8], limits), "refused NoRoot at 0:0 pointers 0");
}

// A message of these segments, each a list of words.
fn framed(segments: &[&[u64]]) -> Vec<u8> {
    let mut numbers = vec![segments.len() as u32 - 1];
    numbers.extend(segments.iter().map(|it| it.len() as u32));
    numbers.resize(numbers.len() / 2 * 2 + numbers.len() % 2 * 2, 0);
    let mut bytes: Vec<u8> = numbers.iter().flat_map(|it| it.to_le_bytes()).collect();
    for word in segments.iter().flat_map(|it| it.iter()) {
        bytes.extend(word.to_le_bytes());
    }
    bytes
}

#[test]
fn what_is_not_strict_is_refused_without_its_flag() {
    let far = 0xa; // to a pad of one word at word 1 of segment 0
    for (message, line) in [
        (framed(&[&[far, 0]]), "refused NullPad at 0:0 pointers 1"),
        (
            framed(&[&[far, 3]]),
            "refused CapabilityPad at 0:0 pointers 1",
        ),
        (
            framed(&[&[6 | (1 << 32)], &[2 | (2 << 32), 0], &[]]),
            "refused EmptySegment at 0:0 pointers 1",
        ),
        (
            framed(&[&[&[0][..]], &[&[][..]; 511][..]].concat()),
            "refused ManySegments at 0:0 pointers 0",
        ),
    ] {
        let error = vet(&message, Limits::DEFAULT).expect_err("it is not strict");
        assert_eq!(
            (error.to_string(), error.length()),
            (line.to_owned(), message.len())
        );
        let limits = Limits::DEFAULT.with_allow_nonstrict(true);
        assert!(vet(&message, limits).is_ok());
    }
}

#[test]
fn words_without_a_table_are_a_message() {
    let limits = Limits::DEFAULT;
    for frame in [CONTACTS, TELEMETRY, &NULL] {
        let message = vet_words(&frame[8..], limits).expect("the sample is accepted");
        assert_eq!(
            message.as_message(),
            vet(frame, limits).expect("so is this")
        );
    }
    assert_eq!(is_canonical_words(CONTACTS_COPY, limits), Ok(true));
    assert_eq!(is_canonical_words(&CONTACTS[8..], limits), Ok(false));
    for (words, text) in [
        (&[][..], "NoMessage"),
        (&NULL[9..], "Truncated, 8 bytes are required"),
        (&NULL[..15], "Truncated, 16 bytes are required"),
        (&CYCLE[8..], "refused DepthLimit at 0:0 pointers 65"),
    ] {
        let error = vet_words(words, limits).expect_err("it isn't accepted");
        assert_eq!(error.to_string(), text);
        let other = is_canonical_words(words, limits).expect_err("it isn't accepted");
        assert_eq!(other.to_string(), text);
    }
    let error = vet_words(&CYCLE[8..], limits).expect_err("it is refused");
    assert_eq!(error.unvetted, CYCLE);
}

#[test]
fn segments_that_are_no_message_are_refused() {
    let line = |segments: &[&[u8]]| {
        let error = vet_segments(segments, Limits::DEFAULT.with_message_words(512));
        error.expect_err("it is refused").to_string()
    };
    let words = [0; 8 * 513];
    assert_eq!(line(&[]), "NoMessage");
    assert_eq!(line(&[&[][..]; 513]), "TooManySegments 513");
    assert_eq!(line(&[&[][..]; 600]), "TooManySegments 600");
    assert_eq!(
        line(&[&words[..8], &words[..9], &words[..7]]),
        "BadSegment 1"
    );
    assert_eq!(line(&[&words]), "TooLarge 513");
    assert_eq!(
        line(&[&words[..8]; 512]),
        "refused ManySegments at 0:0 pointers 0"
    );
    assert_eq!(
        line(&[&[], &words[..8]]),
        "refused NoRoot at 0:0 pointers 0"
    );
}

#[test]
fn an_amplified_message_is_refused_without_its_flag() {
    // A list of Void: 4,097 elements and the root word are charged 4,097 words, and 4,098 are one too many.
    let list = |count: u64| framed(&[&[1 | (count << 35)]]);
    let least = list(4097);
    let least = vet(&least, Limits::DEFAULT).expect("at the limit");
    assert_eq!(least.report().charge, 4097);
    let more = list(4098);
    let error = vet(&more, Limits::DEFAULT).expect_err("above the limit");
    assert_eq!(error.to_string(), "refused WordLimit at 0:0 pointers 1");
    let limits = Limits::DEFAULT.with_allow_amplified(true);
    let charge = |report: &Report| report.charge;
    assert_eq!(vet(&more, limits).map(|it| charge(it.report())), Ok(4098));
}

#[test]
fn trailing_bytes_are_refused_or_returned() {
    for more in [1, 7, 8] {
        let bytes = [&NULL[..], &[7; 8][..more]].concat();
        let error = vet(&bytes, Limits::DEFAULT).expect_err("bytes follow");
        let trailing = FrameError::Trailing {
            bytes: more as u64,
            length: 16,
            segments: 1,
        };
        assert_eq!((error, error.length()), (VetError::Frame(trailing), 16));
        let (message, rest) = vet_prefix(&bytes, Limits::DEFAULT).expect("a message");
        assert_eq!((message.bytes(), rest), bytes.split_at(16));
        assert_eq!(frame_length(&bytes, Limits::DEFAULT), Ok(16));
    }
}

#[test]
fn a_stream_is_its_messages() {
    let lines: Vec<_> = messages(STREAM, Limits::DEFAULT)
        .map(|message| message.expect("each is accepted").report().to_string())
        .collect();
    let expected = [
        "accepted charge 391 depth 11 pointers 125 caps 0",
        "accepted charge 76 depth 4 pointers 34 caps 0",
        "accepted charge 20 depth 2 pointers 7 caps 0",
        "accepted charge 78 depth 7 pointers 21 caps 0",
    ];
    assert_eq!(lines, expected);
    let whole: Vec<u8> = messages(STREAM, Limits::DEFAULT)
        .flat_map(|message| message.expect("each is accepted").bytes().to_vec())
        .collect();
    assert_eq!(whole, STREAM);
    let canonical: Vec<_> = messages(STREAM, Limits::DEFAULT)
        .map(|message| message.expect("each is accepted").is_canonical())
        .collect();
    assert_eq!(canonical, [false, true, false, false]);
}

#[test]
fn each_prefix_of_a_stream_reports_what_is_required() {
    let stream = [NULL, CYCLE, NULL].concat();
    for length in 0..=stream.len() {
        let mut iterator = messages(&stream[..length], Limits::DEFAULT);
        let items: Vec<_> = iterator.by_ref().collect();
        let (whole, cut) = (length / 16, length % 16);
        assert_eq!(items.len(), whole + usize::from(cut > 0));
        for (at, item) in items.iter().enumerate() {
            match (at, item) {
                (0 | 2, Ok(message)) => assert_eq!(message.bytes(), NULL),
                (1, Err(VetError::Refused(refusal))) => {
                    assert_eq!((refusal.reason, refusal.length), (Reason::DepthLimit, 16));
                }
                (_, Err(VetError::Frame(FrameError::Truncated { required }))) => {
                    assert_eq!((at, *required), (whole, if cut < 8 { 8 } else { 16 }));
                }
                other => panic!("{other:?}"),
            }
        }
        assert_eq!(iterator.rest().len(), cut);
        assert!(iterator.next().is_none());
    }
}
