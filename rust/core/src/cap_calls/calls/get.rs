// crates/cap_calls/src/calls/get.rt without its contracts, by tools/erase: that text is proved, this one is only tested.
//! The call for the node at a path.

use crate::cap_calls::answer::Answer;
use crate::cap_calls::found::Found;
use crate::cap_calls::front::{front, NoFrame};
use crate::cap_calls::limits::CallLimits;
use crate::cap_calls::node::CallNode;
use crate::cap_calls::over::{over, Call};
use crate::cap_calls::report::CallReport;
use crate::cap_frame::{ByteView, Segments};
use crate::cap_path::{read_path, PathSteps};
use crate::cap_vet::{get_with, Demands, Limits};

/// Follows a path in the message that bytes are, and reports the node there. By their form the
/// bytes may start with the message. Only the pointers on the path are looked at, so the message
/// needn't be vetted (encoding: Security Considerations). Allocates nothing.
///
/// The first of these that applies is returned:
/// - [`Answer::BadLimits`];
/// - [`Answer::BadPath`], if `path` is no text of a path; `detail` is the first bad byte;
/// - why there is no frame, or [`Answer::Trailing`], as for [`crate::vet`];
/// - the reason of the first pointer on the path that is wrong or past a limit, with its place; the
///   charge of the pointers on the path counts, the root's among them;
/// - [`Answer::ManySegments`], and then the form of the first pointer on the path that isn't
///   strict, without the flag 1;
/// - [`Answer::NoNode`], if nothing is at the path;
/// - [`Answer::Good`], and `node` is the node.
///
/// `node` is all 0 without [`Answer::Good`]. The report is written whole.
pub fn get(
    bytes: &[u8],
    limits: &CallLimits,
    path: &[u8],
    node: &mut CallNode,
    report: &mut CallReport,
) -> Answer {
    let found = find(bytes, limits, path, node);
    *report = found.report;
    found.answer
}

// What the call finds.
fn find(bytes: &[u8], limits: &CallLimits, path: &[u8], node: &mut CallNode) -> Found {
    *node = CallNode::none();
    match read_path(path) {
        Ok(steps) => {
            let mut nodes = [CallNode::none()];
            let whole = !limits.allows_trailing();
            let found = over(&Getting { steps }, whole, bytes, limits, &mut nodes);
            *node = nodes[0];
            found
        }
        Err(at) => {
            if are_limits(limits) {
                bad_path(at)
            } else {
                Found::without(NoFrame::BadLimits)
            }
        }
    }
}

// Whether no limit is above its maximum, no flag and no form is unknown, and the reserved fields are 0.
// Of no bytes nothing else is found before bad limits.
pub(crate) fn are_limits(limits: &CallLimits) -> bool {
    match front(&[], limits) {
        Err(NoFrame::BadLimits) => false,
        Err(NoFrame::NoMessage | NoFrame::Fault(_)) | Ok(_) => true,
    }
}

// What is found of a text that stops being a path at this byte.
pub(crate) fn bad_path(at: usize) -> Found {
    Found {
        answer: Answer::BadPath,
        count: 0,
        report: CallReport {
            detail: at as u64,
            ..CallReport::none()
        },
    }
}

// The call on a message, for the path of these steps.
#[derive(Clone, Copy)]
struct Getting<'t> {
    steps: PathSteps<'t>,
}

impl<'t> Call for Getting<'t> {
    type Item = CallNode;

    #[inline(never)]
    fn on<'b>(
        &self,
        view: &ByteView<'b>,
        _words: u64,
        limits: Limits,
        demands: Demands,
        out: &mut [CallNode],
    ) -> Found {
        match get_with(view, limits, demands, self.steps) {
            Ok(Some(at)) => {
                put_first(out, CallNode::of(&at, view.count()));
                path_answer(Answer::Good)
            }
            Ok(None) => {
                put_first(out, CallNode::none());
                path_answer(Answer::NoNode)
            }
            Err(refusal) => {
                put_first(out, CallNode::none());
                Found::refused(refusal)
            }
        }
    }
}

// Puts a node into the first of some nodes, if there is one.
#[inline(always)]
fn put_first(out: &mut [CallNode], node: CallNode) {
    if !out.is_empty() {
        out[0] = node;
    }
}

// What is found of a path whose pointers meet the demands.
pub(crate) fn path_answer(answer: Answer) -> Found {
    Found {
        answer,
        count: 0,
        report: CallReport::none(),
    }
}
