// crates/cap_cmd/src/running.rt without its contracts, by tools/erase: that text is proved, this one is only tested.
//! Doing a job: its engine is run over an input, an output and an output for faults. The exit status
//! is 0 if all is well, 1 for what the input is, and 3 for a failed device or if memory ran out.

use capvet_core::rattle::Vec;

use crate::cap_cmd::asking::NO_DEMANDS;
use crate::cap_cmd::jobs::{Job, JsonReport, Task, Work};
use crate::cap_run::{
    end_single, read_single, run_canon_with, run_check_json, run_check_with, run_digest_with,
    run_dump_with, run_explain, run_explain_exclusive, run_explain_exclusive_json,
    run_explain_json, run_filter, run_get_with, run_hash_json, run_hash_with, run_pack_with,
    run_segments_with, run_unpack_with, run_vet_exclusive_json, run_vet_exclusive_with,
    run_vet_json, run_vet_with, write_copy_fault, write_explained_fault, write_fault,
    write_guessed_fault, write_single_fault, Cause, CopyFault, Demands, ExplainSettings,
    ExplainedFault, FilterForm, FlushBeforeWaiting, Outcome, Peek, RunFault, Settings, SingleFault,
    Step,
};
use capvet_core::cap_canon::CanonFault;
use capvet_core::cap_frame::FrameFault;
use capvet_core::cap_pack::{Packer, Unpacker};
use capvet_core::cap_words::{
    ByteIn, ByteOut, PlainSink, PlainWords, SliceIn, SourceFault, WordSink, WordSource,
};
use capvet_core::rattle::alloc::Global;

/// The most words that are packed or unpacked.
const MOST_TRANSCODED: u64 = 1099511627776;

/// The exit status if a device or memory failed.
const FAILED: u8 = 3;

/// Whether the input of a job is packed.
fn input_is_packed(job: &Job) -> bool {
    match &job.task {
        Task::Segments | Task::Vet { .. } | Task::Dump | Task::Get { .. } => job.packed,
        Task::Check | Task::Canon | Task::Under { .. } | Task::One { .. } => job.packed,
        Task::Pack => false,
        Task::Unpack => true,
    }
}

/// Writes the line of the fault that ended a run, if there is one, and returns the exit status.
fn report_run<E: ByteOut>(err: &mut E, answer: &Result<Outcome, RunFault>) -> u8 {
    if let Err(fault) = answer {
        let _ = write_fault(err, fault);
    }
    stream_status(answer)
}

/// Writes the line of the fault that ended a run, if there is one, and what the input looks like if
/// it is of another format. `packed` says whether it was read as packed, and `place` how many bytes of
/// it were read. Returns the exit status.
fn report_guessed<E: ByteOut>(
    packed: bool,
    place: u64,
    err: &mut E,
    answer: &Result<Outcome, RunFault>,
) -> u8 {
    if let Err(fault) = answer {
        let _ = write_guessed_fault(err, fault, packed, place);
    }
    stream_status(answer)
}

/// Writes the line of the fault that ended a run and the lines that explain it, if there is one, and
/// returns the exit status.
fn report_explained<E: ByteOut>(err: &mut E, answer: &Result<Outcome, ExplainedFault>) -> u8 {
    if let Err(fault) = answer {
        let _ = write_explained_fault(err, fault);
    }
    explained_status(answer)
}

/// Writes the line of the fault that ended packing or unpacking, if there is one, and returns the
/// exit status.
fn report_transcode<E: ByteOut>(err: &mut E, answer: &Result<u64, CopyFault>) -> u8 {
    if let Err(fault) = answer {
        let _ = write_copy_fault(err, fault);
    }
    words_status(answer)
}

/// Writes the line for an input that isn't exactly one message, and returns the exit status.
fn report_single<E: ByteOut>(err: &mut E, fault: &SingleFault) -> u8 {
    let _ = write_single_fault(err, fault);
    single_status(fault)
}

/// Whether work is to explain each refusal.
fn explains(work: &Work) -> bool {
    match work {
        Work::Explain { .. } => true,
        Work::Json {
            report: JsonReport::Explain { .. },
        } => true,
        _ => false,
    }
}

/// Whether work says what an input of another format looks like, without an explanation.
fn guesses(work: &Work) -> bool {
    match work {
        Work::Filter { .. } => true,
        Work::Hash { .. } => true,
        Work::Json {
            report: JsonReport::Hash,
        } => true,
        _ => false,
    }
}

/// Writes the line of the fault with which reading the first message ended, and the lines that
/// explain it or say what the input looks like, by the work. `packed` says whether it was read as
/// packed. Returns the exit status.
fn report_first<E: ByteOut>(work: &Work, packed: bool, err: &mut E, fault: ExplainedFault) -> u8 {
    if explains(work) {
        return report_explained(err, &Err(fault));
    }
    if guesses(work) {
        return report_guessed(packed, fault.at.start, err, &Err(fault.fault));
    }
    report_run(err, &Err(fault.fault))
}

/// Sees whether the input ends after its first message, on which work was done with this status.
/// Writes the line of what is wrong, and returns the exit status of all. If a device or memory failed
/// before, nothing is read.
fn end_one<S: WordSource, E: ByteOut>(status: u8, source: &mut S, err: &mut E) -> u8 {
    if status == FAILED {
        return FAILED;
    }
    match end_single(source) {
        Ok(()) => status,
        Err(fault) => report_single(err, &fault),
    }
}

/// How a job runs: its limits, whether its input is packed, and when its output is flushed.
#[derive(Clone, Copy)]
struct Course {
    alloc: Global,
    packed: bool,
    settings: Settings,
    flushing: FlushBeforeWaiting,
}

impl Course {
    /// Vets each message, exclusively if that is asked, and returns the exit status.
    fn vet<S: Peek, O: ByteOut, E: ByteOut>(
        &self,
        demands: Demands,
        exclusive: bool,
        source: &mut S,
        out: &mut O,
        err: &mut E,
    ) -> u8 {
        let (alloc, settings, flushing) = (self.alloc, &self.settings, &self.flushing);
        if exclusive {
            let answer = run_vet_exclusive_with(alloc, source, out, settings, demands, flushing);
            report_run(err, &answer)
        } else {
            let answer = run_vet_with(alloc, source, out, settings, demands, flushing);
            report_run(err, &answer)
        }
    }

    /// Vets each message, exclusively if that is asked, explains each refusal, and if that is asked
    /// why an accepted message isn't canonical. Returns the exit status.
    fn explain<S: Peek, O: ByteOut, E: ByteOut>(
        &self,
        demands: Demands,
        exclusive: bool,
        canonical: bool,
        source: &mut S,
        out: &mut O,
        err: &mut E,
    ) -> u8 {
        let (alloc, flushing) = (self.alloc, &self.flushing);
        let settings = &ExplainSettings {
            limits: self.settings.limits,
            size: self.settings.size,
            messages: self.settings.messages,
            packed: self.packed,
            canonical,
        };
        if exclusive {
            let answer = run_explain_exclusive(alloc, source, out, settings, demands, flushing);
            report_explained(err, &answer)
        } else {
            let answer = run_explain(alloc, source, out, settings, demands, flushing);
            report_explained(err, &answer)
        }
    }

    /// Writes the frame of each accepted message, and returns the exit status.
    fn filter<S: Peek, O: ByteOut, E: ByteOut>(
        &self,
        demands: Demands,
        form: FilterForm,
        source: &mut S,
        out: &mut O,
        err: &mut E,
    ) -> u8 {
        let (alloc, settings, flushing) = (self.alloc, &self.settings, &self.flushing);
        let answer = run_filter(alloc, source, out, err, settings, demands, form, flushing);
        report_guessed(self.packed, source.position(), err, &answer)
    }

    /// Writes the node at a path of each message, and returns the exit status.
    fn get<S: Peek, O: ByteOut, E: ByteOut>(
        &self,
        demands: Demands,
        path: &Vec<Step>,
        source: &mut S,
        out: &mut O,
        err: &mut E,
    ) -> u8 {
        let (alloc, settings, flushing) = (self.alloc, &self.settings, &self.flushing);
        let path = path.as_slice();
        let answer = run_get_with(alloc, source, out, settings, demands, path, flushing);
        report_run(err, &answer)
    }

    /// Writes the hash of each message, which is its digits alone if `alone` says so, and returns the
    /// exit status.
    fn hash<S: Peek, O: ByteOut, E: ByteOut>(
        &self,
        demands: Demands,
        alone: bool,
        source: &mut S,
        out: &mut O,
        err: &mut E,
    ) -> u8 {
        let (alloc, settings, flushing) = (self.alloc, &self.settings, &self.flushing);
        if alone {
            let answer = run_digest_with(alloc, source, out, settings, demands, flushing);
            report_guessed(self.packed, source.position(), err, &answer)
        } else {
            let answer = run_hash_with(alloc, source, out, settings, demands, flushing);
            report_guessed(self.packed, source.position(), err, &answer)
        }
    }

    /// Writes the JSON object of each message, which explains a refusal, and returns the exit status.
    fn explain_json<S: Peek, O: ByteOut, E: ByteOut>(
        &self,
        demands: Demands,
        exclusive: bool,
        canonical: bool,
        source: &mut S,
        out: &mut O,
        err: &mut E,
    ) -> u8 {
        let (alloc, flushing) = (self.alloc, &self.flushing);
        let settings = &ExplainSettings {
            limits: self.settings.limits,
            size: self.settings.size,
            messages: self.settings.messages,
            packed: self.packed,
            canonical,
        };
        if exclusive {
            let answer =
                run_explain_exclusive_json(alloc, source, out, settings, demands, flushing);
            report_explained(err, &answer)
        } else {
            let answer = run_explain_json(alloc, source, out, settings, demands, flushing);
            report_explained(err, &answer)
        }
    }

    /// Writes the JSON object of each message, and returns the exit status.
    fn json<S: Peek, O: ByteOut, E: ByteOut>(
        &self,
        demands: Demands,
        report: JsonReport,
        source: &mut S,
        out: &mut O,
        err: &mut E,
    ) -> u8 {
        let (alloc, settings, flushing) = (self.alloc, &self.settings, &self.flushing);
        match report {
            JsonReport::Vet { exclusive } => {
                if exclusive {
                    let answer =
                        run_vet_exclusive_json(alloc, source, out, settings, demands, flushing);
                    report_run(err, &answer)
                } else {
                    let answer = run_vet_json(alloc, source, out, settings, demands, flushing);
                    report_run(err, &answer)
                }
            }
            JsonReport::Explain {
                exclusive,
                canonical,
            } => self.explain_json(demands, exclusive, canonical, source, out, err),
            JsonReport::Check => {
                let answer = run_check_json(alloc, source, out, settings, demands, flushing);
                report_run(err, &answer)
            }
            JsonReport::Hash => {
                let answer = run_hash_json(alloc, source, out, settings, demands, flushing);
                report_guessed(self.packed, source.position(), err, &answer)
            }
        }
    }

    /// Writes the canonical copies of messages to an output, and returns the exit status and the
    /// output.
    fn canon<S: Peek, O: ByteOut, E: ByteOut>(
        &self,
        demands: Demands,
        source: &mut S,
        out: O,
        err: &mut E,
    ) -> (u8, O) {
        let (alloc, settings, flushing) = (self.alloc, &self.settings, &self.flushing);
        let mut sink = PlainSink::new(out);
        let answer = run_canon_with(alloc, source, &mut sink, settings, demands, flushing);
        (report_run(err, &answer), sink.into_inner())
    }

    /// Does work on each message under demands, and returns the exit status and the output.
    fn under<S: Peek, O: ByteOut, E: ByteOut>(
        &self,
        demands: Demands,
        work: &Work,
        source: &mut S,
        out: O,
        err: &mut E,
    ) -> (u8, O) {
        let (mut out, alloc, settings) = (out, self.alloc, &self.settings);
        let flushing = &self.flushing;
        match work {
            Work::Vet { exclusive } => {
                let status = self.vet(demands, *exclusive, source, &mut out, err);
                (status, out)
            }
            Work::Explain {
                exclusive,
                canonical,
            } => {
                let (exclusive, canonical) = (*exclusive, *canonical);
                let status = self.explain(demands, exclusive, canonical, source, &mut out, err);
                (status, out)
            }
            Work::Filter { form } => {
                let status = self.filter(demands, *form, source, &mut out, err);
                (status, out)
            }
            Work::Dump => {
                let answer = run_dump_with(alloc, source, &mut out, settings, demands, flushing);
                (report_run(err, &answer), out)
            }
            Work::Get { path } => {
                let status = self.get(demands, path, source, &mut out, err);
                (status, out)
            }
            Work::Check => {
                let answer = run_check_with(alloc, source, &mut out, settings, demands, flushing);
                (report_run(err, &answer), out)
            }
            Work::Canon => self.canon(demands, source, out, err),
            Work::Hash { alone } => {
                let status = self.hash(demands, *alone, source, &mut out, err);
                (status, out)
            }
            Work::Json { report } => {
                let status = self.json(demands, *report, source, &mut out, err);
                (status, out)
            }
        }
    }

    /// Does work on the message of an input that has to be exactly one message. The work is done over
    /// the frame of this message. Unless a device or memory failed, it is then seen whether the
    /// input ends.
    fn one<S: Peek, O: ByteOut, E: ByteOut>(
        &self,
        demands: Demands,
        work: &Work,
        source: &mut S,
        out: O,
        err: &mut E,
    ) -> (u8, O) {
        let settings = &ExplainSettings {
            limits: self.settings.limits,
            size: self.settings.size,
            messages: self.settings.messages,
            packed: self.packed,
            canonical: false,
        };
        match read_single(self.alloc, source, settings) {
            Ok(Some(frame)) => {
                let mut words = PlainWords::new(SliceIn::new(frame.bytes()));
                let (status, out) = self.under(demands, work, &mut words, out, err);
                (end_one(status, source, err), out)
            }
            Ok(None) => (report_single(err, &SingleFault::NoMessage), out),
            Err(fault) => (report_first(work, self.packed, err, fault), out),
        }
    }

    /// Packs words to an output, and returns the exit status and the output.
    fn pack<S: Peek, O: ByteOut, E: ByteOut>(
        &self,
        source: &mut S,
        out: O,
        err: &mut E,
    ) -> (u8, O) {
        let mut sink = Packer::new(out);
        let answer = run_pack_with(source, &mut sink, MOST_TRANSCODED, &self.flushing);
        (report_transcode(err, &answer), sink.into_inner())
    }

    /// Writes words to an output as they are, and returns the exit status and the output.
    fn unpack<S: Peek, O: ByteOut, E: ByteOut>(
        &self,
        source: &mut S,
        out: O,
        err: &mut E,
    ) -> (u8, O) {
        let mut sink = PlainSink::new(out);
        let answer = run_unpack_with(source, &mut sink, MOST_TRANSCODED, &self.flushing);
        (report_transcode(err, &answer), sink.into_inner())
    }
}

/// Does a job over the words of its input. `live` says whether the input may have to be waited for.
fn run_over<S: Peek, O: ByteOut, E: ByteOut>(
    alloc: Global,
    job: &Job,
    live: bool,
    source: S,
    out: O,
    err: &mut E,
) -> (u8, O) {
    let (mut source, mut out) = (source, out);
    let course = Course {
        alloc,
        packed: job.packed,
        settings: job.settings,
        flushing: FlushBeforeWaiting { live },
    };
    match &job.task {
        Task::Segments => {
            let (settings, flushing) = (&course.settings, &course.flushing);
            let answer = run_segments_with(&mut source, &mut out, settings, flushing);
            (report_run(err, &answer), out)
        }
        Task::Vet { exclusive } => {
            let status = course.vet(NO_DEMANDS, *exclusive, &mut source, &mut out, err);
            (status, out)
        }
        Task::Dump => course.under(NO_DEMANDS, &Work::Dump, &mut source, out, err),
        Task::Get { path } => {
            let status = course.get(NO_DEMANDS, path, &mut source, &mut out, err);
            (status, out)
        }
        Task::Check => course.under(NO_DEMANDS, &Work::Check, &mut source, out, err),
        Task::Canon => course.canon(NO_DEMANDS, &mut source, out, err),
        Task::Pack => course.pack(&mut source, out, err),
        Task::Unpack => course.unpack(&mut source, out, err),
        Task::Under { demands, work } => course.under(*demands, work, &mut source, out, err),
        Task::One { demands, work } => course.one(*demands, work, &mut source, out, err),
    }
}

/// Does what [`run_job_with`] does with an input that may have to be waited for.
///
/// # Status
///
/// That of [`run_job_with`].
pub fn run_job<I: ByteIn, O: ByteOut, E: ByteOut>(
    alloc: Global,
    job: &Job,
    input: I,
    out: O,
    err: &mut E,
) -> (u8, O) {
    run_job_with(alloc, job, true, input, out, err)
}

/// Does a job: reads the input, writes to the output, and writes the line of a fault to `err`. If
/// the task is [`Task::Filter`], the lines of refused messages go to `err` too, before that of a
/// fault. It returns the exit status and the output. A line that can't be written changes no status.
///
/// `live` says whether the input may have to be waited for, as a pipe. What was written of a message
/// is then flushed before that. With a regular file nothing is flushed, and the caller does so.
///
/// # Status
///
/// - 0: every message was accepted, is canonical if the work is to check or to explain that, and has
///   a hash if the work is to hash; or all words were copied.
/// - 1, for a message: it was refused, or it doesn't meet the demands of the job, or it has a
///   capability and a copy or a hash is needed. Also if it uses a word twice and the job forbids that,
///   or isn't canonical and the work is to check or to explain that.
/// - 1, for the input: it is no stream of messages within the limits, is cut inside a word or a
///   group, or has more words than are copied. Also if it isn't exactly one message and the task is
///   [`Task::One`].
/// - 3: reading or writing failed, the input or the output was closed after an error, or an
///   allocation failed.
pub fn run_job_with<I: ByteIn, O: ByteOut, E: ByteOut>(
    alloc: Global,
    job: &Job,
    live: bool,
    input: I,
    out: O,
    err: &mut E,
) -> (u8, O) {
    if input_is_packed(job) {
        run_over(alloc, job, live, Unpacker::new(input), out, err)
    } else {
        run_over(alloc, job, live, PlainWords::new(input), out, err)
    }
}

/// The exit status of a fault at a message.
fn fault_status(cause: Cause) -> u8 {
    match cause {
        Cause::TooManyMessages => 1,
        Cause::Frame(fault) => match fault {
            FrameFault::TooManySegments { count: _ } => 1,
            FrameFault::TooLarge { words: _ } => 1,
            FrameFault::Truncated { byte: _ } => 1,
            FrameFault::Device => 3,
            FrameFault::Memory => 3,
            FrameFault::Spent => 3,
        },
        Cause::Output(_) => 3,
        Cause::Refused(_) => 1,
        Cause::NotStrict(_) => 1,
        Cause::Canon(CanonFault::HasCapability { .. }) => 1,
        Cause::Canon(CanonFault::Memory) => 3,
        Cause::Memory => 3,
    }
}

/// The exit status of an outcome: 0 where every message was accepted.
fn outcome_status(outcome: &Outcome) -> u8 {
    if outcome.refused == 0 && outcome.noncanonical == 0 {
        0
    } else {
        1
    }
}

/// The exit status of an engine's answer: 0 where every message was accepted.
pub(crate) fn stream_status(answer: &Result<Outcome, RunFault>) -> u8 {
    match answer {
        Ok(outcome) => outcome_status(outcome),
        Err(fault) => fault_status(fault.cause),
    }
}

/// The exit status of the answer of an engine that explains, by the same rule.
pub(crate) fn explained_status(answer: &Result<Outcome, ExplainedFault>) -> u8 {
    match answer {
        Ok(outcome) => outcome_status(outcome),
        Err(fault) => fault_status(fault.fault.cause),
    }
}

/// The exit status of an input that isn't exactly one message.
fn single_status(fault: &SingleFault) -> u8 {
    match fault {
        SingleFault::NoMessage | SingleFault::Trailing { byte: _ } => 1,
        SingleFault::Run(fault) => fault_status(fault.cause),
    }
}

/// The exit status of a copy's answer: 0 where all words were copied.
pub(crate) fn words_status(answer: &Result<u64, CopyFault>) -> u8 {
    match answer {
        Ok(_) => 0,
        Err(CopyFault::TooManyWords) => 1,
        Err(CopyFault::Source(fault)) => match fault {
            SourceFault::Truncated { byte: _ } => 1,
            SourceFault::Device => 3,
            SourceFault::Spent => 3,
        },
        Err(CopyFault::Output(_)) => 3,
    }
}
