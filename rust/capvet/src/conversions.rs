//! Conversions between the errors, and to those of `std`, so that `?` works.

#[cfg(feature = "alloc")]
use crate::NotAccepted;
use crate::{
    CanonicalError, ExclusiveError, FrameError, HasCapability, PackError, Refusal,
    UnpackMessageError, VetError,
};

// (each error from those that it has as a variant)
macro_rules! from {
    ($($error:ident::$variant:ident($inner:ident),)+) => {$(
        impl From<$inner> for $error {
            fn from(error: $inner) -> Self {
                Self::$variant(error)
            }
        }
    )+};
}

from! {
    VetError::Frame(FrameError),
    VetError::Refused(Refusal),
    ExclusiveError::NotAccepted(VetError),
    CanonicalError::HasCapability(HasCapability),
    PackError::Frame(FrameError),
    UnpackMessageError::Frame(FrameError),
}

#[cfg(feature = "alloc")]
impl From<NotAccepted> for VetError {
    fn from(error: NotAccepted) -> Self {
        error.error
    }
}

#[cfg(feature = "std")]
mod to_std {
    use super::*;
    use crate::{LimitsError, PathError, ReadError, UnknownReason};
    use std::error::Error as StdError;
    use std::io::{Error, ErrorKind};

    macro_rules! errors {
        ($($error:ty: $kind:expr,)+) => {$(
            impl StdError for $error {}

            /// The error is inside of the other one, and has the same text.
            impl From<$error> for Error {
                fn from(error: $error) -> Self {
                    let kind: fn(&$error) -> ErrorKind = $kind;
                    Self::new(kind(&error), error)
                }
            }
        )+};
    }

    errors! {
        CanonicalError: |error| match error {
            CanonicalError::HasCapability(_) => ErrorKind::InvalidData,
            CanonicalError::BufferTooSmall { .. } => ErrorKind::InvalidInput,
        },
        ExclusiveError: |error| match error {
            ExclusiveError::NotAccepted(error) => kind(error),
            ExclusiveError::BufferTooSmall { .. } => ErrorKind::InvalidInput,
        },
        FrameError: |error| kind_of_frame(error),
        HasCapability: |_| ErrorKind::InvalidData,
        LimitsError: |_| ErrorKind::InvalidInput,
        NotAccepted: |error| kind(&error.error),
        PackError: |error| match error {
            PackError::Frame(error) => kind_of_frame(error),
            PackError::Truncated | PackError::TooLarge { .. } => ErrorKind::InvalidData,
            PackError::BufferTooSmall { .. } => ErrorKind::InvalidInput,
        },
        PathError: |_| ErrorKind::InvalidInput,
        Refusal: |_| ErrorKind::InvalidData,
        UnknownReason: |_| ErrorKind::InvalidInput,
        UnpackMessageError: |error| match error {
            UnpackMessageError::NoMessage | UnpackMessageError::Truncated { .. } => {
                ErrorKind::UnexpectedEof
            }
            UnpackMessageError::OtherBuffer | UnpackMessageError::BufferTooSmall { .. } => {
                ErrorKind::InvalidInput
            }
            UnpackMessageError::Frame(error) => kind_of_frame(error),
        },
        VetError: kind,
    }

    fn kind(error: &VetError) -> ErrorKind {
        match error {
            VetError::Frame(error) => kind_of_frame(error),
            VetError::Refused(_) => ErrorKind::InvalidData,
        }
    }

    fn kind_of_frame(error: &FrameError) -> ErrorKind {
        match error {
            FrameError::NoMessage | FrameError::Truncated { .. } => ErrorKind::UnexpectedEof,
            FrameError::BadSegment { .. } => ErrorKind::InvalidInput,
            FrameError::TooManySegments { .. }
            | FrameError::TooLarge { .. }
            | FrameError::Trailing { .. } => ErrorKind::InvalidData,
        }
    }

    impl StdError for ReadError {}

    impl From<ReadError> for Error {
        fn from(error: ReadError) -> Self {
            match error {
                ReadError::Io(error) => error,
                ReadError::NotAccepted(error) => error.into(),
            }
        }
    }
}

#[cfg(all(test, feature = "std"))]
mod tests {
    use crate::*;
    use std::io::{Error, ErrorKind};

    // The error of a call on these bytes, as a function that reads returns it.
    fn as_io(bytes: &[u8]) -> Result<Report, Error> {
        Ok(*vet(bytes, Limits::DEFAULT)?.report())
    }

    #[test]
    fn errors_become_those_of_io() {
        let cycle = [0, 0, 0, 0, 1, 0, 0, 0, 0xfc, 0xff, 0xff, 0xff, 0, 0, 1, 0];
        let more = [&[0; 4][..], &[1], &[0; 12]].concat();
        for (bytes, kind, text) in [
            (
                &cycle[..],
                ErrorKind::InvalidData,
                "refused DepthLimit at 0:0 pointers 65",
            ),
            (
                &cycle[..9],
                ErrorKind::UnexpectedEof,
                "Truncated, 16 bytes are required",
            ),
            (&[], ErrorKind::UnexpectedEof, "NoMessage"),
            (&more, ErrorKind::InvalidData, "Trailing 1"),
        ] {
            let error = as_io(bytes).expect_err("it isn't accepted");
            assert_eq!((error.kind(), error.to_string()), (kind, text.into()));
            let inner = error.get_ref().and_then(|it| it.downcast_ref::<VetError>());
            assert_eq!(inner.copied(), vet(bytes, Limits::DEFAULT).err());
        }
    }

    #[test]
    fn each_error_has_a_kind() {
        let frame = FrameError::BadSegment { index: 1 };
        let cut = FrameError::Truncated { required: 16 };
        let position = Position {
            segment: 0,
            word: 7,
        };
        let capability = HasCapability { position };
        let refused = MessageBuf::vet(vec![0; 8], Limits::DEFAULT).expect_err("without a root");
        let required = 8;
        let errors: [(Error, ErrorKind); 18] = [
            (frame.into(), ErrorKind::InvalidInput),
            (VetError::from(cut).into(), ErrorKind::UnexpectedEof),
            (
                VetError::from(refused.clone()).into(),
                ErrorKind::InvalidData,
            ),
            (refused.clone().into(), ErrorKind::InvalidData),
            (
                ReadError::NotAccepted(refused).into(),
                ErrorKind::InvalidData,
            ),
            (capability.into(), ErrorKind::InvalidData),
            (
                CanonicalError::from(capability).into(),
                ErrorKind::InvalidData,
            ),
            (
                CanonicalError::BufferTooSmall { required }.into(),
                ErrorKind::InvalidInput,
            ),
            (
                ExclusiveError::from(VetError::from(cut)).into(),
                ErrorKind::UnexpectedEof,
            ),
            (
                ExclusiveError::BufferTooSmall { required }.into(),
                ErrorKind::InvalidInput,
            ),
            (PackError::from(cut).into(), ErrorKind::UnexpectedEof),
            (PackError::Truncated.into(), ErrorKind::InvalidData),
            (
                PackError::BufferTooSmall { required }.into(),
                ErrorKind::InvalidInput,
            ),
            (
                UnpackMessageError::from(cut).into(),
                ErrorKind::UnexpectedEof,
            ),
            (
                UnpackMessageError::NoMessage.into(),
                ErrorKind::UnexpectedEof,
            ),
            (
                UnpackMessageError::OtherBuffer.into(),
                ErrorKind::InvalidInput,
            ),
            (
                "x".parse::<Path>().expect_err("no path").into(),
                ErrorKind::InvalidInput,
            ),
            (
                Limits::new(u64::MAX, 0, 0).expect_err("above").into(),
                ErrorKind::InvalidInput,
            ),
        ];
        for (error, kind) in errors {
            assert_eq!(error.kind(), kind, "{error}");
        }
    }

    // Errors are passed up by value, and lints ask for less than 128 bytes. No type of the crate has kilobytes.
    #[test]
    fn nothing_is_large() {
        use std::mem::size_of;
        assert!(size_of::<NotAccepted>() < 128 && size_of::<ReadError>() < 128);
        assert!(size_of::<Message>() <= 128 && size_of::<VetError>() <= 64);
        assert!(size_of::<Path>() <= 32 && size_of::<Explanation>() <= 64);
        assert!(size_of::<Nodes<&[Step]>>() < 700 && size_of::<Feed>() <= 192);
    }
}
