// crates/cap_walk/src/walking.rt without its contracts, by tools/erase: that text is proved, this one is only tested.
//! The walk: one pointer word a turn, in preorder.

use crate::cap_frame::Segments;
use crate::cap_spec::{Reason, Refusal};
use crate::cap_walk::limits::Limits;
use crate::cap_walk::looking::{look_described, Looked};
use crate::cap_walk::null_words::nulls;
use crate::cap_walk::pointer_run::PointerRun;
use crate::cap_walk::report::Report;
use crate::cap_walk::turn::{add, visit, Stopped, Turn};
use arrayvec::ArrayVec;

/// The pointer words still to be looked at after those of the current run, the next ones last.
/// Each object on the way down that has some left has one run. 257 are enough for the deepest
/// walk.
pub(crate) type Stack<const N: usize> = ArrayVec<PointerRun, N>;

/// What comes after a turn.
enum Next {
    /// A pointer word, the first of the current run.
    More,
    /// The same, where the stack is full.
    Full,
    /// Nothing.
    Done,
}

/// Walks a message from its root in preorder, and takes a turn at each pointer word that isn't zero
/// (encoding: Security Considerations). The turn has to know what it knows before the first pointer
/// word. The report has the numbers of the whole tree. After an error it says nothing. Allocates
/// nothing.
///
/// # Errors
///
/// - [`Stopped::Refused`]: the first pointer word in preorder at which anything is wrong or a limit
///   is passed. Or segment 0 has no words (`NoRoot`, at 0:0). No turn is taken there.
/// - [`Stopped::ByTurn`]: the turn stopped the walk. No later word is looked at.
pub fn walk<M: Segments, T: Turn>(
    message: &M,
    limits: &Limits,
    turn: &mut T,
    report: &mut Report,
) -> Result<(), Stopped<T::Stop>> {
    if message.len(0) == 0 {
        return Err(Stopped::Refused(Refusal {
            segment: 0,
            word: 0,
            reason: Reason::NoRoot,
            pointers: 0,
        }));
    }
    *report = Report::default();
    // Each message initializes its runs, so a walk begins with few of them.
    let mut stack: Stack<8> = Stack::new();
    let mut run = root();
    match walk_on(message, limits, turn, &mut stack, &mut run, report) {
        Ok(true) => Ok(()),
        Ok(false) => walk_deep(message, limits, turn, &stack, &mut run, report),
        Err(stopped) => Err(stopped),
    }
}

// The root word alone.
#[inline(always)]
fn root() -> PointerRun {
    PointerRun {
        segment: 0,
        at: 0,
        left: 1,
        more: 0,
        data_words: 0,
        pointers: 0,
        level: 1,
    }
}

// Goes on where those few runs are full, with as many as the deepest walk can have.
#[cold]
#[inline(never)]
fn walk_deep<M: Segments, T: Turn>(
    message: &M,
    limits: &Limits,
    turn: &mut T,
    few: &Stack<8>,
    run: &mut PointerRun,
    report: &mut Report,
) -> Result<(), Stopped<T::Stop>> {
    let mut stack: Stack<257> = Stack::new();
    if stack.try_extend_from_slice(few.as_slice()).is_err() {
        unreachable!();
    }
    match walk_on(message, limits, turn, &mut stack, run, report) {
        Ok(true) => Ok(()),
        Ok(false) => unreachable!(),
        Err(stopped) => Err(stopped),
    }
}

// Goes on with the words of this run and those of the stack until no pointer word is left, the
// walk is stopped, or the stack is full. `true` if no word is left. If the stack is full, the walk
// has to go on with the run. The current run is beside the stack, so that a word with nothing below
// it costs no push and no pop.
#[inline(always)]
fn walk_on<M: Segments, T: Turn, const N: usize>(
    message: &M,
    limits: &Limits,
    turn: &mut T,
    stack: &mut Stack<N>,
    first: &mut PointerRun,
    counts: &mut Report,
) -> Result<bool, Stopped<T::Stop>> {
    // Nothing outside of the loop has these, so they stay in registers.
    let limits = *limits;
    let mut run = *first;
    let mut report = *counts;
    'walk: loop {
        let is_null = message.word(run.segment, run.at) == 0;
        match turn_described(
            message,
            &limits,
            turn,
            &mut report,
            run.segment,
            run.at,
            run.level,
        ) {
            Some(Ok(below)) => match go_on(stack, &mut run, below) {
                Next::More => {
                    if is_null {
                        pass_nulls(message, &mut run, &mut report);
                    }
                }
                Next::Full => {
                    *first = run;
                    *counts = report;
                    return Ok(false);
                }
                Next::Done => {
                    *counts = report;
                    return Ok(true);
                }
            },
            Some(Err(stop)) => return Err(Stopped::ByTurn(stop)),
            None => match turn_other(message, &limits, turn, stack, &mut run, &mut report) {
                Ok(Next::More) => {}
                Ok(Next::Full) => {
                    *first = run;
                    *counts = report;
                    return Ok(false);
                }
                Ok(Next::Done) => {
                    *counts = report;
                    return Ok(true);
                }
                Err(stopped) => return Err(stopped),
            },
        }
    }
}

// Takes the turn at a word where `turn_described` returns nothing, and goes on after it. It works on
// copies, so that the values of the loop have no address outside of it.
#[inline(always)]
fn turn_other<M: Segments, T: Turn, const N: usize>(
    message: &M,
    limits: &Limits,
    turn: &mut T,
    stack: &mut Stack<N>,
    run: &mut PointerRun,
    report: &mut Report,
) -> Result<Next, Stopped<T::Stop>> {
    let limits = *limits;
    let mut at = *run;
    let mut counts = *report;
    let next = turn_followed(message, &limits, turn, stack, &mut at, &mut counts);
    *run = at;
    *report = counts;
    next
}

// The same, and not inlined: few words need it, and only these may be such as common readers reject.
#[cold]
#[inline(never)]
fn turn_followed<M: Segments, T: Turn, const N: usize>(
    message: &M,
    limits: &Limits,
    turn: &mut T,
    stack: &mut Stack<N>,
    run: &mut PointerRun,
    report: &mut Report,
) -> Result<Next, Stopped<T::Stop>> {
    let (s, w) = (run.segment, run.at);
    let looked = match visit(message, limits, report, s, w, run.level) {
        Ok(looked) => looked,
        Err(refusal) => return Err(Stopped::Refused(refusal)),
    };
    let cost = looked.cost();
    let place = looked.place();
    let below = add(report, s, w, looked);
    match turn.after(message, s, w, place, true, report.pointers, cost) {
        Ok(()) => Ok(go_on(stack, run, below)),
        Err(stop) => Err(Stopped::ByTurn(stop)),
    }
}

// Looks at the next pointer word, and takes the turn there. Gives the run of its object's pointers.
// Returns a result only of words that `look_described` has one of, and of null, at which no turn is
// taken. Otherwise it changes nothing.
#[inline(always)]
fn turn_described<M: Segments, T: Turn>(
    message: &M,
    limits: &Limits,
    turn: &mut T,
    report: &mut Report,
    s: u32,
    w: u32,
    level: u32,
) -> Option<Result<Option<PointerRun>, T::Stop>> {
    if message.word(s, w) == 0 {
        return Some(Ok(add(report, s, w, Looked::Null(0))));
    }
    match look_described(message, limits, report.charge, s, w, level) {
        None => None,
        Some(looked) => {
            let cost = looked.cost();
            let place = looked.place();
            let below = add(report, s, w, looked);
            match turn.after(message, s, w, place, false, report.pointers, cost) {
                Ok(()) => Some(Ok(below)),
                Err(stop) => Some(Err(stop)),
            }
        }
    }
}

// Skips null words at the start of the others of a row, while another word follows them. Most words
// of a list may be null, and these cost no turn.
#[inline(always)]
fn pass_nulls<M: Segments>(message: &M, run: &mut PointerRun, report: &mut Report) {
    if run.left < 2 || message.word(run.segment, run.at) != 0 {
        return;
    }
    let passed = nulls(message, run.segment, run.at, run.left - 1);
    // The count stays below the charge, a number of 64 bits.
    let _charge = report.charge;
    run.at += passed;
    run.left -= passed;
    report.pointers += u64::from(passed);
}

// Goes on after the first word of the run, first with the run below that word.
#[inline(always)]
fn go_on<const N: usize>(
    stack: &mut Stack<N>,
    run: &mut PointerRun,
    below: Option<PointerRun>,
) -> Next {
    match below {
        Some(below) => {
            let more = run.advance();
            push_kept(stack, more, *run);
            *run = below;
            if stack.is_full() {
                return Next::Full;
            }
            Next::More
        }
        None => {
            if run.advance() {
                return Next::More;
            }
            match stack.pop() {
                Some(below) => {
                    *run = below;
                    Next::More
                }
                None => Next::Done,
            }
        }
    }
}

// One more run, where something is left of it.
#[inline(always)]
fn push_kept<const N: usize>(stack: &mut Stack<N>, more: bool, run: PointerRun) {
    if more {
        stack.push(run);
    }
}
