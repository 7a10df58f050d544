//! Messages that were vetted, and the calls that vet.

use crate::calls::{self, length_of, Answer, Form, RawReport};
use crate::{FrameError, Limits, Node, Nodes, Report, Segments, Step, VetError};
use core::fmt;
use core::iter::FusedIterator;

/// A message that was vetted. Only vetting makes one, so a function that takes it needs no other check.
///
/// It borrows the bytes that were vetted. `MessageBuf` owns them.
///
/// ```compile_fail
/// // (nothing else makes one)
/// let forged = capvet::Message { bytes: &[7; 16], report: todo!() };
/// ```
#[derive(Clone, Copy, Debug, PartialEq, Eq, Hash)]
pub struct Message<'b> {
    bytes: &'b [u8],
    report: Report,
}

impl<'b> Message<'b> {
    // The message of an accepted frame.
    pub(crate) const fn of(bytes: &'b [u8], report: Report) -> Self {
        Self { bytes, report }
    }

    /// The bytes of its frame.
    #[must_use]
    pub const fn bytes(&self) -> &'b [u8] {
        self.bytes
    }

    /// The numbers of its tree.
    #[must_use]
    pub const fn report(&self) -> &Report {
        &self.report
    }

    /// Its segments, each as its bytes.
    pub fn segments(&self) -> Segments<'b> {
        Segments::of(self.bytes, self.report.segments)
    }

    /// The node at a path, or `None` if the path leads to nothing. It allocates nothing.
    ///
    /// `[]` is the root. [`Step::Pointer`] leads from a struct to one of its pointers, and [`Step::Element`] from a list of
    /// pointers or structs to an element. A `Path` is parsed from a text such as `/p0/i7/p2`.
    ///
    /// A null node means the default of the field. `None` means it only if each node before it on the path is null or of the
    /// kind that the schema has. Readers also take lists of other kinds: a list of pointers or values as a list of structs, and
    /// the other way round. There a path leads to nothing, and the sender chooses. So get the node of each list first, and
    /// refuse another [`kind`](Node::kind).
    ///
    /// # Examples
    ///
    /// ```
    /// use capvet::{Limits, Step};
    ///
    /// // A struct of one data word and one pointer, which leads to the text "Ada".
    /// let bytes = [
    ///     0, 0, 0, 0, 4, 0, 0, 0, 0, 0, 0, 0, 1, 0, 1, 0, 7, 0, 0, 0, 0, 0, 0, 0, 1, 0, 0, 0, 34, 0, 0, 0, 65, 100, 97, 0, 0,
    ///     0, 0, 0,
    /// ];
    /// let message = capvet::vet(&bytes, Limits::DEFAULT)?;
    /// let root = message.get([]).unwrap();
    /// assert_eq!((root.to_string(), root.u64_at(0)), ("struct 1 1".to_owned(), Some(7)));
    /// let name = message.get([Step::Pointer(0)]).unwrap();
    /// assert_eq!((name.to_string(), name.text()), ("list 2 4".to_owned(), Some("Ada")));
    /// assert_eq!(message.get([Step::Pointer(1)]), None);
    /// # #[cfg(feature = "alloc")]
    /// assert_eq!(message.get("/p0".parse::<capvet::Path>().unwrap()), Some(name));
    /// # Ok::<(), capvet::VetError>(())
    /// ```
    pub fn get<P: AsRef<[Step]>>(&self, path: P) -> Option<Node<'b>> {
        let (answer, raw, _) = calls::get(self.bytes, &Limits::LARGEST, path.as_ref());
        (answer == Answer::OK).then(|| Node::of(self.bytes, &raw))
    }

    /// An iterator over the nodes at paths of which one step varies. It allocates nothing.
    ///
    /// The first path is `path`. In each following one the number of the step `varying`, counted from 0, is one more, up to the
    /// end of the list or of the struct's pointers. So `enumerate` and `zip` keep the numbers. Each item is what
    /// [`get`](Message::get) returns for its path. There is none if there is no such list or struct.
    ///
    /// In a list of another kind than you expect `None` is no default: see [`get`](Message::get).
    ///
    /// # Panics
    ///
    /// If the path has no step `varying`.
    ///
    /// # Examples
    ///
    /// ```
    /// use capvet::{Limits, Step};
    ///
    /// // A struct of two pointers, which lead to the texts "Ada" and "Eve".
    /// let bytes = [
    ///     0, 0, 0, 0, 5, 0, 0, 0, 0, 0, 0, 0, 0, 0, 2, 0, 5, 0, 0, 0, 34, 0, 0, 0, 5, 0, 0, 0, 34, 0, 0, 0, 65, 100, 97, 0, 0,
    ///     0, 0, 0, 69, 118, 101, 0, 0, 0, 0, 0,
    /// ];
    /// let message = capvet::vet(&bytes, Limits::DEFAULT)?;
    /// let texts = message.get_range([Step::Pointer(0)], 0).map(|node| node?.text());
    /// assert_eq!(texts.collect::<Vec<_>>(), [Some("Ada"), Some("Eve")]);
    /// // A struct has no elements.
    /// assert_eq!(message.get_range([Step::Element(0)], 0).len(), 0);
    /// # Ok::<(), capvet::VetError>(())
    /// ```
    pub fn get_range<P: AsRef<[Step]>>(&self, path: P, varying: usize) -> Nodes<'b, P> {
        Nodes::of(self.bytes, path, varying)
    }

    /// A copy that owns its bytes.
    #[cfg(feature = "alloc")]
    #[must_use]
    pub fn to_buf(&self) -> crate::MessageBuf {
        crate::MessageBuf::of(self.bytes.to_vec(), self.report)
    }
}

/// Vets the message that `bytes` are, and nothing else.
///
/// It accepts a message exactly if the root denotes a finite tree that is inside the segments and within the limits (encoding:
/// Security Considerations). It allocates nothing, unless [`Limits::exclusive`] is set.
///
/// # Errors
///
/// The first of these that applies.
///
/// - [`VetError::Frame`]: the bytes hold no complete frame within the limits, as for [`frame_length`], or trailing bytes follow
///   the message.
/// - [`VetError::Refused`]: it names the first pointer in preorder at which anything is wrong or a limit is exceeded. Then come
///   the reasons of messages that aren't strict, and [`Reason::Overlap`](crate::Reason::Overlap).
///
/// # Examples
///
/// ```
/// use capvet::{FrameError, Limits, Reason, VetError};
///
/// // A struct whose pointer leads back to itself.
/// let cycle = [0, 0, 0, 0, 1, 0, 0, 0, 0xfc, 0xff, 0xff, 0xff, 0, 0, 1, 0];
/// match capvet::vet(&cycle, Limits::DEFAULT) {
///     Err(VetError::Refused(refusal)) => {
///         assert_eq!((refusal.reason, refusal.pointer.unwrap().number), (Reason::DepthLimit, 65));
///         assert_eq!(refusal.to_string(), "refused DepthLimit at 0:0 pointers 65");
///     }
///     other => panic!("{other:?}"),
/// }
///
/// // The null pointer, and a byte after the message.
/// let more = [0, 0, 0, 0, 1, 0, 0, 0, 0, 0, 0, 0, 0, 0, 0, 0, 7];
/// let error = capvet::vet(&more, Limits::DEFAULT).unwrap_err();
/// assert!(matches!(error, VetError::Frame(FrameError::Trailing { bytes: 1, .. })));
/// ```
pub fn vet(bytes: &[u8], limits: Limits) -> Result<Message<'_>, VetError> {
    let (answer, raw) = calls::vet(bytes, &limits, Form::Whole);
    Ok(Message::of(bytes, report_of(answer, &raw)?))
}

/// Vets the message that `bytes` begin with, and returns it and the bytes after it, which aren't looked at.
///
/// # Errors
///
/// Those of [`vet`], except [`FrameError::Trailing`]. The bytes after a refused message begin at [`VetError::length`].
///
/// # Examples
///
/// ```
/// use capvet::Limits;
///
/// let more = [0, 0, 0, 0, 1, 0, 0, 0, 0, 0, 0, 0, 0, 0, 0, 0, 7];
/// let (message, rest) = capvet::vet_prefix(&more, Limits::DEFAULT)?;
/// assert_eq!((message.bytes(), rest), (&more[..16], &[7][..]));
/// # Ok::<(), capvet::VetError>(())
/// ```
pub fn vet_prefix(bytes: &[u8], limits: Limits) -> Result<(Message<'_>, &[u8]), VetError> {
    let (answer, raw) = calls::vet(bytes, &limits, Form::Prefix);
    let report = report_of(answer, &raw)?;
    let (frame, rest) = bytes.split_at(report.length);
    Ok((Message::of(frame, report), rest))
}

// The report of a message that is accepted.
pub(crate) fn report_of(answer: Answer, raw: &RawReport) -> Result<Report, VetError> {
    match answer {
        Answer::OK => Ok(Report::of(raw)),
        _ => Err(VetError::of(answer, raw)),
    }
}

/// The error of [`vet_exclusive`].
#[derive(Clone, Copy, Debug, PartialEq, Eq, Hash)]
#[non_exhaustive]
pub enum ExclusiveError {
    /// The message isn't accepted.
    NotAccepted(
        /// The reason.
        VetError,
    ),
    /// `marks` has too few elements. Whether a word is used twice is unknown.
    #[non_exhaustive]
    BufferTooSmall {
        /// How many elements the marks take.
        required: usize,
    },
}

/// As in the lines of the program, where it has one.
impl fmt::Display for ExclusiveError {
    fn fmt(&self, f: &mut fmt::Formatter<'_>) -> fmt::Result {
        match self {
            Self::NotAccepted(error) => error.fmt(f),
            Self::BufferTooSmall { required } => {
                write!(f, "BufferTooSmall, {required} elements are required")
            }
        }
    }
}

/// Does what [`vet`] does with [`Limits::exclusive`], in memory of the caller: it also refuses a message that uses a word twice.
/// It allocates nothing.
///
/// In an accepted message the root word, the landing pads of each pointer that a path reaches, and the words of each object
/// are all distinct. An object without words uses none. The charge is then less than the words of all segments, apart from
/// list elements without bits or without words.
///
/// `marks` has one bit for each word, and may hold anything. `bytes.len() / 512 + 1` elements are always enough.
///
/// # Errors
///
/// The first of these that applies.
///
/// - [`ExclusiveError::NotAccepted`]: the message isn't accepted, as by [`vet`]. `marks` is unchanged.
/// - [`ExclusiveError::BufferTooSmall`]: `marks` is too small. It is unchanged.
/// - [`ExclusiveError::NotAccepted`] for [`Reason::Overlap`](crate::Reason::Overlap): a word is used twice. It names the first
///   pointer in preorder that uses a word which is already in use: the root word, a word of the same pointer, or a word of an
///   earlier one.
///
/// # Examples
///
/// ```
/// use capvet::{ExclusiveError, Limits};
///
/// // A struct of two pointers, both to one struct of one word.
/// let mut shared = [0; 40];
/// (shared[4], shared[14]) = (4, 2);
/// (shared[16], shared[20]) = (4, 1);
/// (shared[28], shared[32]) = (1, 7);
/// let mut marks = [u64::MAX; 1];
/// assert!(capvet::vet(&shared, Limits::DEFAULT).is_ok());
/// let overlap = capvet::vet_exclusive(&shared, Limits::DEFAULT, &mut marks).unwrap_err();
/// assert_eq!(overlap.to_string(), "refused Overlap at 0:2 pointers 3");
/// let none = capvet::vet_exclusive(&shared, Limits::DEFAULT, &mut []);
/// assert!(matches!(none, Err(ExclusiveError::BufferTooSmall { required: 1, .. })));
/// ```
pub fn vet_exclusive<'b>(
    bytes: &'b [u8],
    limits: Limits,
    marks: &mut [u64],
) -> Result<Message<'b>, ExclusiveError> {
    let (answer, required, raw) = calls::vet_exclusive(bytes, &limits, Form::Whole, marks);
    match answer {
        Answer::BUFFER_TOO_SMALL => Err(ExclusiveError::BufferTooSmall { required }),
        _ => Ok(Message::of(bytes, report_of(answer, &raw)?)),
    }
}

/// Returns the length in bytes of the frame that `bytes` begin with, its table included. It reads only the table, and
/// checks no pointer. Bytes may follow the frame. Only [`Limits::message_words`] has an effect.
///
/// To read a message from a connection, receive until there are [`FrameError::required`] bytes, and call again.
///
/// # Errors
///
/// The first of these that applies (encoding: Serialization Over a Stream).
///
/// - [`FrameError::NoMessage`]: `bytes` is empty.
/// - [`FrameError::Truncated`]: there are less than 8 bytes.
/// - [`FrameError::TooManySegments`]: the table says more than 512 segments.
/// - [`FrameError::Truncated`]: the bytes end inside the table.
/// - [`FrameError::TooLarge`]: the segments have more words than the limits allow.
/// - [`FrameError::Truncated`]: the bytes end inside the segments.
///
/// # Examples
///
/// ```
/// use capvet::Limits;
///
/// let message = [0, 0, 0, 0, 1, 0, 0, 0, 0, 0, 0, 0, 0, 0, 0, 0];
/// assert_eq!(capvet::frame_length(&message, Limits::DEFAULT), Ok(16));
/// for (received, required) in [(0, 8), (7, 8), (8, 16), (15, 16)] {
///     let error = capvet::frame_length(&message[..received], Limits::DEFAULT).unwrap_err();
///     assert_eq!(error.required(), Some(required));
/// }
/// ```
pub fn frame_length(bytes: &[u8], limits: Limits) -> Result<usize, FrameError> {
    let (answer, raw) = calls::frame(bytes, &limits);
    match answer {
        Answer::OK => Ok(length_of(&raw)),
        _ => Err(FrameError::of_frame(answer, &raw)),
    }
}

/// An iterator over the messages of a stream; see [`messages`].
#[derive(Clone, Debug)]
#[must_use = "an iterator vets nothing before it is asked"]
pub struct Messages<'b> {
    rest: &'b [u8],
    limits: Limits,
    is_over: bool,
}

/// Returns an iterator over the messages in `bytes`, one after the other (encoding: Serialization Over a Stream). It vets
/// each message as it reaches it.
///
/// A refused message gives an error with its [length](VetError::length), and the iterator goes on. A [`VetError::Frame`] means
/// that the rest of the bytes doesn't begin with a frame within the limits, and is the last item. If the bytes end between two
/// messages, the iterator ends without an error. So for no bytes there is no item.
///
/// # Examples
///
/// ```
/// use capvet::{FrameError, Limits, VetError};
///
/// let null = [0, 0, 0, 0, 1, 0, 0, 0, 0, 0, 0, 0, 0, 0, 0, 0];
/// let cycle = [0, 0, 0, 0, 1, 0, 0, 0, 0xfc, 0xff, 0xff, 0xff, 0, 0, 1, 0];
/// let received = [&null[..], &cycle, &null, &null[..10]].concat();
///
/// let mut messages = capvet::messages(&received, Limits::DEFAULT);
/// assert_eq!(messages.next().unwrap()?.bytes(), null);
/// assert!(matches!(messages.next(), Some(Err(VetError::Refused(_)))));
/// assert_eq!(messages.next().unwrap()?.report().pointers, 1);
/// // A part of a fourth message: keep it, and go on with more bytes from the connection.
/// let cut = messages.next().unwrap().unwrap_err();
/// assert!(matches!(cut, VetError::Frame(FrameError::Truncated { required: 16, .. })));
/// assert_eq!(messages.rest(), &null[..10]);
/// assert_eq!(messages.next(), None);
/// # Ok::<(), VetError>(())
/// ```
pub const fn messages(bytes: &[u8], limits: Limits) -> Messages<'_> {
    Messages {
        rest: bytes,
        limits,
        is_over: false,
    }
}

impl<'b> Messages<'b> {
    /// The bytes after the messages so far, refused ones included.
    #[must_use]
    pub const fn rest(&self) -> &'b [u8] {
        self.rest
    }
}

impl<'b> Iterator for Messages<'b> {
    type Item = Result<Message<'b>, VetError>;

    fn next(&mut self) -> Option<Self::Item> {
        if self.is_over || self.rest.is_empty() {
            return None;
        }
        let (answer, raw) = calls::vet(self.rest, &self.limits, Form::Prefix);
        let frame = length_of(&raw);
        // (without a frame the start of the next message is unknown)
        self.is_over = frame == 0;
        let (bytes, rest) = self.rest.split_at(frame);
        self.rest = rest;
        Some(report_of(answer, &raw).map(|report| Message::of(bytes, report)))
    }
}

impl FusedIterator for Messages<'_> {}
