// crates/cap_run/src/engines/transcode.rt without its contracts, by tools/erase: that text is proved, this one is only tested.
//! The engines that put the words of one encoding in another. They don't look at framing.

use crate::cap_run::fault::output_fault;
use crate::cap_run::waiting::{flush_sink, FlushNever, Flushing};
use crate::cap_text::CopyFault;
use capvet_core::cap_pack::Packer;
use capvet_core::cap_words::{ByteOut, OutFault, WordSink, WordSource};

// The buffer of `run_pack` in bytes. The packer gets at most these 64 words in one call.
const BUFFER_TO_PACK: usize = 8 * 64;

// The buffer of `run_unpack` in bytes. The sink gets at most these 1024 words in one call.
const BUFFER_TO_UNPACK: usize = 8 * 1024;

/// Puts the buffered words of the source that fit in `buffer`, in one call, and returns how many
/// words these are. They are flushed as `flushing` says. 0 doesn't say that no words are to come.
#[inline]
fn put_ready<S: WordSource, K: WordSink, F: Flushing<S>>(
    source: &mut S,
    sink: &mut K,
    buffer: &mut [u8],
    flushing: &F,
) -> Result<u64, OutFault> {
    let count = source.ready(buffer);
    if count == 0 {
        return Ok(0);
    }
    if let Err(fault) = sink.put_bytes(&buffer[..count]) {
        return Err(output_fault(fault));
    }
    match flush_sink(sink, flushing.before_word(source)) {
        Ok(()) => Ok(count as u64 / 8),
        Err(fault) => Err(output_fault(fault)),
    }
}

/// Puts a word that was read. It is flushed as `flushing` says.
fn put_word<S: WordSource, K: WordSink, F: Flushing<S>>(
    source: &S,
    sink: &mut K,
    word: u64,
    flushing: &F,
) -> Result<(), OutFault> {
    if let Err(fault) = sink.put(word) {
        return Err(output_fault(fault));
    }
    match flush_sink(sink, flushing.before_word(source)) {
        Ok(()) => Ok(()),
        Err(fault) => Err(output_fault(fault)),
    }
}

/// Puts the words of a source to a sink, at most `words` of them, and doesn't finish the sink. One
/// piece is the buffered words that fit in `buffer`, or one word if none are buffered. Returns how
/// many words were put.
fn put_words<S: WordSource, K: WordSink, F: Flushing<S>>(
    source: &mut S,
    sink: &mut K,
    words: u64,
    buffer: &mut [u8],
    flushing: &F,
) -> Result<u64, CopyFault> {
    let mut put = 0;
    while put < words {
        let most = (words - put).min(buffer.len() as u64 / 8) as usize;
        let count = match put_ready(source, sink, &mut buffer[..8 * most], flushing) {
            Ok(count) => count,
            Err(fault) => return Err(CopyFault::Output(fault)),
        };
        put += count;
        if count > 0 {
            continue;
        }
        match source.next() {
            Ok(Some(word)) => {
                if let Err(fault) = put_word(source, sink, word, flushing) {
                    return Err(CopyFault::Output(fault));
                }
            }
            Ok(None) => return Ok(put),
            Err(fault) => return Err(CopyFault::Source(fault)),
        }
        put += 1;
    }
    match source.next() {
        Ok(Some(_)) => Err(CopyFault::TooManyWords),
        Ok(None) => Ok(put),
        Err(fault) => Err(CopyFault::Source(fault)),
    }
}

/// Whether the output didn't fail, so that the sink has still to be finished.
fn without_fault(answer: &Result<u64, CopyFault>) -> bool {
    match answer {
        Err(CopyFault::Output(_)) => false,
        _ => true,
    }
}

/// Puts the words of a source to a sink, at most `words` of them, in pieces that fit in `buffer`.
/// Finishes the sink unless the output failed before.
fn transcode<S: WordSource, K: WordSink, F: Flushing<S>>(
    source: &mut S,
    sink: &mut K,
    words: u64,
    buffer: &mut [u8],
    flushing: &F,
) -> Result<u64, CopyFault> {
    let answer = put_words(source, sink, words, buffer, flushing);
    if without_fault(&answer) {
        match sink.finish() {
            Ok(()) => answer,
            Err(fault) => Err(CopyFault::Output(output_fault(fault))),
        }
    } else {
        answer
    }
}

/// Does what [`run_pack_with`] does, without a flush.
///
/// # Errors
///
/// Those of [`run_pack_with`].
pub fn run_pack<S: WordSource, O: ByteOut>(
    source: &mut S,
    sink: &mut Packer<O>,
    words: u64,
) -> Result<u64, CopyFault> {
    run_pack_with(source, sink, words, &FlushNever)
}

/// Packs the words of a source, at most `words` of them, finishes the packer, and returns how many
/// words there were (encoding: Packing). It doesn't look at what the words mean.
///
/// The output is flushed as `flushing` says. The group that the packer holds back isn't written then:
/// its text depends on the next word.
///
/// Allocates nothing itself: the words pass through a buffer of 512 bytes on the stack. The packer
/// is closed after the call in any case.
///
/// # Errors
///
/// - [`CopyFault::TooManyWords`]: the source has more than `words` words. The first `words` of them
///   were packed, and the packer was finished.
/// - [`CopyFault::Source`]: the source failed, or its input ended inside a word or inside a group
///   of packed words. The words before that were packed, and the packer was finished.
/// - [`CopyFault::Output`]: the output failed, as words were put or as the packer was finished. It
///   took a prefix of the text. All words that were read were put to the packer. If the output
///   failed at a piece of at most 64 words, the packer took the words before the piece. No word
///   after the piece was read.
///
/// If finishing the packer fails after another error, `Output` is returned.
pub fn run_pack_with<S: WordSource, O: ByteOut, F: Flushing<S>>(
    source: &mut S,
    sink: &mut Packer<O>,
    words: u64,
    flushing: &F,
) -> Result<u64, CopyFault> {
    transcode(source, sink, words, &mut [0; BUFFER_TO_PACK], flushing)
}

/// Does what [`run_unpack_with`] does, without a flush.
///
/// # Errors
///
/// Those of [`run_unpack_with`].
pub fn run_unpack<S: WordSource, K: WordSink>(
    source: &mut S,
    sink: &mut K,
    words: u64,
) -> Result<u64, CopyFault> {
    run_unpack_with(source, sink, words, &FlushNever)
}

/// Puts the words of a source to a sink, at most `words` of them, finishes the sink, and returns
/// how many words there were. With an unpacker as the source this unpacks (encoding: Packing). It
/// doesn't look at what the words mean.
///
/// The sink is flushed as `flushing` says.
///
/// Allocates nothing itself: the words pass through a buffer of 8192 bytes on the stack. The sink
/// is closed after the call in any case.
///
/// # Errors
///
/// - [`CopyFault::TooManyWords`]: the source has more than `words` words. The first `words` of them
///   were put, and the sink was finished.
/// - [`CopyFault::Source`]: the source failed, or its input ended inside a word or inside a group
///   of packed words. The words before that were put, and the sink was finished.
/// - [`CopyFault::Output`]: the output failed, as words were put or as the sink was finished. It
///   took a prefix of the text. All words that were read were put to the sink. If the output failed
///   at a piece of at most 1024 words, the sink took the words before the piece. No word after the
///   piece was read.
///
/// If finishing the sink fails after another error, `Output` is returned.
pub fn run_unpack_with<S: WordSource, K: WordSink, F: Flushing<S>>(
    source: &mut S,
    sink: &mut K,
    words: u64,
    flushing: &F,
) -> Result<u64, CopyFault> {
    transcode(source, sink, words, &mut [0; BUFFER_TO_UNPACK], flushing)
}
