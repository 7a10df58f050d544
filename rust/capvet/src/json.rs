//! Reports, limits and errors as JSON, with the members of the program's `--json`.

use crate::{FrameError, Limits, NotAccepted, Reason, Refusal, Report, VetError};
use alloc::format;
use alloc::string::String;

impl Report {
    /// The numbers as a JSON object. Its members are the fields, without `first_capability`. The last four are those of an
    /// accepted message in `capvet vet --json`.
    ///
    /// # Examples
    ///
    /// ```
    /// let null = [0, 0, 0, 0, 1, 0, 0, 0, 0, 0, 0, 0, 0, 0, 0, 0];
    /// let message = capvet::vet(&null, capvet::Limits::DEFAULT)?;
    /// assert_eq!(
    ///     message.report().to_json(),
    ///     r#"{"length":16,"segments":1,"words":1,"charge":0,"depth":0,"pointers":1,"capabilities":0}"#
    /// );
    /// # Ok::<(), capvet::VetError>(())
    /// ```
    #[must_use]
    pub fn to_json(&self) -> String {
        let Self {
            length,
            segments,
            words,
            charge,
            depth,
            pointers,
            capabilities,
            first_capability: _,
        } = self;
        format!(
            r#"{{"length":{length},"segments":{segments},"words":{words},"charge":{charge},"depth":{depth},"pointers":{pointers},"capabilities":{capabilities}}}"#
        )
    }
}

impl Limits {
    /// The limits as a JSON object. Its members are the names of the methods that return them.
    #[must_use]
    pub fn to_json(&self) -> String {
        format!(
            r#"{{"message_words":{},"charge":{},"depth":{},"allow_nonstrict":{},"allow_amplified":{},"exclusive":{}}}"#,
            self.message_words(),
            self.charge(),
            self.depth(),
            self.allow_nonstrict(),
            self.allow_amplified(),
            self.exclusive()
        )
    }
}

impl Reason {
    /// The name as a JSON string, with its quotes.
    #[must_use]
    pub fn to_json(self) -> String {
        format!(r#""{self}""#)
    }
}

impl Refusal {
    /// The refusal as a JSON object, with the members of a refused message in `capvet vet --json`, and `length`.
    ///
    /// # Examples
    ///
    /// ```
    /// // A struct whose pointer leads past the end of the segment.
    /// let message = [
    ///     0, 0, 0, 0, 2, 0, 0, 0, 0, 0, 0, 0, 0, 0, 1, 0, 0, 0, 0, 0, 1, 0, 0, 0,
    /// ];
    /// let error = capvet::vet(&message, capvet::Limits::DEFAULT).unwrap_err();
    /// assert_eq!(
    ///     error.to_json(),
    ///     r#"{"length":24,"verdict":"refused","reason":"OutOfSegment","segment":0,"word":1,"pointer":2}"#
    /// );
    /// ```
    #[must_use]
    pub fn to_json(&self) -> String {
        format!("{{{}}}", self.members())
    }

    // The members of the object.
    fn members(&self) -> String {
        let Self { length, reason, .. } = self;
        let place = match self.pointer {
            Some(it) => format!(
                r#","segment":{},"word":{},"pointer":{}"#,
                it.position.segment, it.position.word, it.number
            ),
            None => String::new(),
        };
        format!(r#""length":{length},"verdict":"refused","reason":"{reason}"{place}"#)
    }
}

impl FrameError {
    /// The error as a JSON object: the verdict `broken`, the reason, and the number that it is about.
    #[must_use]
    pub fn to_json(&self) -> String {
        format!("{{{}}}", self.members())
    }

    // The members of the object.
    fn members(&self) -> String {
        let broken = format!(r#""verdict":"broken","reason":"{}""#, self.name());
        match self {
            Self::NoMessage => format!(r#"{broken},"required":8"#),
            Self::TooManySegments { count } => format!(r#"{broken},"segments":{count}"#),
            Self::TooLarge { words } => format!(r#"{broken},"words":{words}"#),
            Self::Truncated { required } => format!(r#"{broken},"required":{required}"#),
            Self::Trailing { bytes, length, .. } => {
                format!(r#""length":{length},{broken},"trailing_bytes":{bytes}"#)
            }
            Self::BadSegment { index } => format!(r#"{broken},"segment":{index}"#),
        }
    }
}

impl VetError {
    /// The error as a JSON object: that of the [`Refusal`] or of the [`FrameError`].
    #[must_use]
    pub fn to_json(&self) -> String {
        format!("{{{}}}", self.members())
    }

    // The members of the object.
    fn members(&self) -> String {
        match self {
            Self::Frame(error) => error.members(),
            Self::Refused(refusal) => refusal.members(),
        }
    }
}

impl NotAccepted {
    /// The error as a JSON object for a log: that of its [`VetError`], with `message` and `offset`, and the path to the pointer
    /// that is refused. The path is found by one more walk up to this pointer.
    #[must_use]
    pub fn to_json(&self) -> String {
        let Self {
            number,
            offset,
            error,
            ..
        } = self;
        // (a path has letters, digits and slashes alone)
        let path = match self.path() {
            Some(path) => format!(r#","path":"{path}""#),
            None => String::new(),
        };
        format!(
            r#"{{"message":{number},"offset":{offset},{}{path}}}"#,
            error.members()
        )
    }
}

#[cfg(all(test, feature = "std"))]
mod tests {
    use crate::{vet, vet_segments, Limits, MessageBuf, Reason};
    use std::string::String;

    const NULL: [u8; 16] = [0, 0, 0, 0, 1, 0, 0, 0, 0, 0, 0, 0, 0, 0, 0, 0];

    // The object of an error.
    fn of_error(bytes: &[u8], limits: Limits) -> String {
        vet(bytes, limits).expect_err("it isn't accepted").to_json()
    }

    #[test]
    fn errors_have_objects() {
        let limits = Limits::DEFAULT;
        let many = [0, 2, 0, 0, 0, 0, 0, 0];
        let twice = [NULL, NULL].concat();
        let tight = limits.with_message_words(0);
        for (bytes, limits, object) in [
            (
                &[][..],
                limits,
                r#"{"verdict":"broken","reason":"NoMessage","required":8}"#,
            ),
            (
                &NULL[..9],
                limits,
                r#"{"verdict":"broken","reason":"Truncated","required":16}"#,
            ),
            (
                &many,
                limits,
                r#"{"verdict":"broken","reason":"TooManySegments","segments":513}"#,
            ),
            (
                &twice,
                limits,
                r#"{"length":16,"verdict":"broken","reason":"Trailing","trailing_bytes":16}"#,
            ),
            (
                &NULL,
                tight,
                r#"{"verdict":"broken","reason":"TooLarge","words":1}"#,
            ),
            (
                &NULL[..8],
                limits,
                r#"{"verdict":"broken","reason":"Truncated","required":16}"#,
            ),
            (
                &[0; 8],
                limits,
                r#"{"length":8,"verdict":"refused","reason":"NoRoot"}"#,
            ),
        ] {
            assert_eq!(of_error(bytes, limits), object);
        }
        let error = vet_segments(&[&NULL[..1]], limits).expect_err("it isn't accepted");
        assert_eq!(
            error.to_json(),
            r#"{"message":0,"offset":0,"verdict":"broken","reason":"BadSegment","segment":0}"#
        );
    }

    #[test]
    fn an_error_of_a_stream_has_its_place_and_path() {
        let cycle = [0, 0, 0, 0, 1, 0, 0, 0, 0xfc, 0xff, 0xff, 0xff, 0, 0, 1, 0];
        let limits = Limits::DEFAULT.with_depth(2);
        let mut error = MessageBuf::vet(cycle.to_vec(), limits).expect_err("it isn't accepted");
        (error.number, error.offset) = (7, 16);
        assert_eq!(
            error.to_json(),
            r#"{"message":7,"offset":16,"length":16,"verdict":"refused","reason":"DepthLimit","segment":0,"word":0,"pointer":3,"path":"/p0/p0"}"#
        );
        let error = MessageBuf::vet(NULL[..9].to_vec(), limits).expect_err("it isn't accepted");
        assert_eq!(
            error.to_json(),
            r#"{"message":0,"offset":0,"verdict":"broken","reason":"Truncated","required":16}"#
        );
    }

    #[test]
    fn limits_and_reasons_have_texts() {
        let limits = Limits::DEFAULT
            .with_exclusive(true)
            .with_allow_amplified(true);
        assert_eq!(
            limits.to_json(),
            r#"{"message_words":8388608,"charge":8388608,"depth":64,"allow_nonstrict":false,"allow_amplified":true,"exclusive":true}"#
        );
        for reason in Reason::ALL {
            let text = reason.to_json();
            assert_eq!(text.trim_matches('"').parse(), Ok(*reason));
            assert_eq!(text.len(), reason.name().len() + 2);
        }
    }
}
