//! The two sides of the comparison, each with what C sees of every call.

use super::call::{
    Audit, Call, Curve, Form, Look, Read, Replay, Report, Request, Seen, Words, Write,
};

/// One side: the library, or what is expected of it.
pub trait Side {
    /// What C sees of a call.
    fn seen(call: &Call) -> Seen {
        match call {
            Call::Words(call) => Self::words(call),
            Call::Form(call) => Self::form(call),
            Call::Audit(call) => Self::audit(call),
            Call::Look(call) => Self::look(call),
            Call::Report(call) => Self::report(call),
            Call::Curve(call) => Self::curve(call),
            Call::Read(call) => Self::read(call),
            Call::Write(call) => Self::write(call),
            Call::Request(call) => Self::request(call),
            Call::Replay(call) => Self::replay(call),
        }
    }

    /// What C sees of pd_words.
    fn words(call: &Words) -> Seen;

    /// What C sees of pd_form.
    fn form(call: &Form) -> Seen;

    /// What C sees of pd_audit.
    fn audit(call: &Audit) -> Seen;

    /// What C sees of pd_look.
    fn look(call: &Look) -> Seen;

    /// What C sees of pd_report.
    fn report(call: &Report) -> Seen;

    /// What C sees of pd_curve.
    fn curve(call: &Curve) -> Seen;

    /// What C sees of pd_read.
    fn read(call: &Read) -> Seen;

    /// What C sees of pd_write.
    fn write(call: &Write) -> Seen;

    /// What C sees of pd_request.
    fn request(call: &Request) -> Seen;

    /// What C sees of pd_replay.
    fn replay(call: &Replay) -> Seen;
}
