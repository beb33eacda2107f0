//! Generated histories as records of the printing program.

use crate::centre::Report;
use crate::compare::{History, Sizes, Step};
use crate::printing::{Order, RecordedReport};

/// The orders of a history; none if it has a step that no record can say.
pub fn orders(history: &History) -> Option<Vec<Order>> {
    history.steps.iter().map(order).collect()
}

/// The order of a step; none if no record can say it.
pub fn order(step: &Step) -> Option<Order> {
    match step {
        Step::Open { session } => Some(Order::Open {
            session: octet(*session)?,
        }),
        Step::Close { session } => Some(Order::Close {
            session: octet(*session)?,
        }),
        Step::Take(take) if take.sizes == Sizes::default() => Some(Order::Octets {
            session: octet(take.session)?,
            stamp: take.stamp.as_slice().try_into().ok()?,
            octets: (take.octets.len() <= 512).then(|| take.octets.clone())?,
        }),
        Step::Outcome(outcome) if outcome.sizes == Sizes::default() => Some(Order::Outcome {
            stamp: outcome.stamp.as_slice().try_into().ok()?,
            report: report(outcome.report)?,
        }),
        _ => None,
    }
}

fn report(report: Report) -> Option<RecordedReport> {
    Some(RecordedReport {
        account: octet(report.account)?,
        id: report.id,
        outcome: report.outcome,
        error: report.error,
    })
}

fn octet(number: usize) -> Option<u8> {
    u8::try_from(number).ok()
}
