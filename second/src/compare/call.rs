//! A call with all that is lent to it, and what C sees of it.

/// One call: its numbers and the contents of every lent stretch before it.
#[derive(Clone, Copy, Debug)]
pub enum Call<'a> {
    Words(Words),
    Form(Form<'a>),
    Audit(Audit<'a>),
    Look(Look<'a>),
    Report(Report<'a>),
    Curve(Curve<'a>),
    Read(Read<'a>),
    Write(Write<'a>),
    Request(Request<'a>),
    Replay(Replay<'a>),
}

/// A call of pd_words.
#[derive(Clone, Copy, Debug)]
pub struct Words {
    pub settings: [u32; 4],
    pub answer: [u32; 1],
}

/// A call of pd_form.
#[derive(Clone, Copy, Debug)]
pub struct Form<'a> {
    pub settings: [u32; 4],
    pub words: &'a [u32],
}

/// A call of pd_audit.
#[derive(Clone, Copy, Debug)]
pub struct Audit<'a> {
    pub words: &'a [u32],
}

/// A call of pd_look.
#[derive(Clone, Copy, Debug)]
pub struct Look<'a> {
    pub words: &'a [u32],
    pub page: u32,
    pub answer: [u32; 2],
}

/// A call of pd_report.
#[derive(Clone, Copy, Debug)]
pub struct Report<'a> {
    pub words: &'a [u32],
    pub list: u32,
    pub result: &'a [u32],
    pub answer: [u32; 1],
}

/// A call of pd_curve.
#[derive(Clone, Copy, Debug)]
pub struct Curve<'a> {
    pub largest: u32,
    pub trace: &'a [u32],
    pub result: &'a [u32],
    pub work: &'a [u32],
}

/// A call of pd_read.
#[derive(Clone, Copy, Debug)]
pub struct Read<'a> {
    pub text: &'a [u8],
    pub trace: &'a [u32],
    pub answer: [u32; 5],
}

/// A call of pd_write.
#[derive(Clone, Copy, Debug)]
pub struct Write<'a> {
    pub settings: [u32; 4],
    pub trace: &'a [u32],
    pub text: &'a [u8],
    pub answer: [u32; 1],
}

/// A call of pd_request.
#[derive(Clone, Copy, Debug)]
pub struct Request<'a> {
    pub words: &'a [u32],
    pub page: u32,
    pub answer: [u32; 4],
}

/// A call of pd_replay.
#[derive(Clone, Copy, Debug)]
pub struct Replay<'a> {
    pub words: &'a [u32],
    pub trace: &'a [u32],
    pub answer: [u32; 3],
}

/// What C sees of a call: the number returned, every lent word afterwards, and whether the memory around is untouched.
#[derive(Clone, Debug, PartialEq, Eq)]
pub struct Seen {
    pub code: u64,
    /// The lent stretches in the order of the arguments, the answer words last.
    pub lent: Vec<Vec<u32>>,
    pub guarded: bool,
}

impl Call<'_> {
    /// The name of the C function.
    pub fn name(&self) -> &'static str {
        match self {
            Call::Words(_) => "pd_words",
            Call::Form(_) => "pd_form",
            Call::Audit(_) => "pd_audit",
            Call::Look(_) => "pd_look",
            Call::Report(_) => "pd_report",
            Call::Curve(_) => "pd_curve",
            Call::Read(_) => "pd_read",
            Call::Write(_) => "pd_write",
            Call::Request(_) => "pd_request",
            Call::Replay(_) => "pd_replay",
        }
    }

    /// The numbers that the call may return, without the line of pd_read.
    pub fn numbers(name: &str) -> &'static [u32] {
        match name {
            "pd_words" => &[0, 1, 2, 3],
            "pd_form" => &[0, 1, 2, 3, 4],
            "pd_audit" => &[0, 1],
            "pd_look" | "pd_request" => &[0, 5, 6],
            "pd_report" => &[0, 5, 8, 9],
            "pd_curve" => &[0, 2, 6, 7, 8],
            "pd_read" => &[0, 7, 8, 10],
            "pd_write" => &[0, 7, 8],
            "pd_replay" => &[0, 5, 6, 7],
            _ => &[],
        }
    }
}

/// Bytes as words, so that every lent stretch is shown alike.
pub fn widened(bytes: &[u8]) -> Vec<u32> {
    bytes.iter().copied().map(u32::from).collect()
}
