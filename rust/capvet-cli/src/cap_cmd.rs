// crates/cap_cmd/src/lib.rt without its contracts, by tools/erase: that text is proved, this one is only tested.
//! What the program does: its words are read into a job (`read_job`), and the job is done over an
//! input, an output and an output for faults (`run_job`). The engines that do a job are given out too.

mod asking;
mod command_line;
mod files;
mod jobs;
mod marked;
mod naming;
mod running;
mod sizes;

pub use crate::cap_run::{
    dump, parse_path, run_canon, run_check, run_dump, run_get, run_pack, run_segments, run_unpack,
    run_vet, run_vet_exclusive, Cause, CopyFault, Demands, FilterForm, Outcome, PathFault,
    RunFault, Settings, Step,
};
pub use command_line::{read_job, read_jobs};
pub use files::{file_marks, run_file, FileMarks};
pub use jobs::{Job, JobFault, Jobs, JsonReport, Task, Work};
pub use marked::MarkedLines;
pub use running::{run_job, run_job_with};
