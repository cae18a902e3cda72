//! Check, Play and Look of docs/RULES.md for plans of form one, as fast as safe Rust makes them: how
//! near the proved library comes to that. Header, bit fields and the shape of results are those of
//! `plain`.
//!
//! Sets of servers are words of 16 bits, and what a party sends to all goes through in one step.
//! A forged stamped value that no operation writes never gets a quorum, so it is passed over.

#![forbid(unsafe_code)]

mod check;
mod cluster;
mod delays;
mod network;
mod sets;
mod stores;
mod votes;

use plain::plan::MOST_OPERATIONS;
use plain::{Form, Outcome, Refused, Seen, WORKSPACE_BYTES};

use cluster::Cluster;

const FORM: &Form = Form::ONE;
const ANSWER_BYTES: usize = FORM.answer_bytes();

/// The number of reads.
pub fn check(plan: &[u8]) -> Outcome<usize> {
    let (_, reads) = check::accepted(plan)?;
    Ok(reads)
}

/// The number of reads; the answers stand at the start of the buffer.
pub fn play(plan: &[u8], answers: &mut [u8], workspace: &mut [u8]) -> Outcome<usize> {
    let (header, reads) = check::accepted(plan)?;
    if answers.len() < ANSWER_BYTES * reads {
        return Err(Refused(9));
    }
    let workspace = workspace.get_mut(..WORKSPACE_BYTES).ok_or(Refused(10))?;
    Cluster::new(plan, header).run(header.ticks, answers);
    workspace.fill(0);
    Ok(reads)
}

/// A server after a tick.
pub fn look(plan: &[u8], workspace: &mut [u8], server: usize, tick: usize) -> Outcome<Seen> {
    let (header, _) = check::accepted(plan)?;
    let workspace = workspace.get_mut(..WORKSPACE_BYTES).ok_or(Refused(10))?;
    if server >= header.servers || tick >= header.ticks {
        return Err(Refused(11));
    }
    let mut cluster = Cluster::new(plan, header);
    cluster.run(tick + 1, &mut [0; ANSWER_BYTES * MOST_OPERATIONS]);
    workspace.fill(0);
    Ok(cluster.look(server))
}
