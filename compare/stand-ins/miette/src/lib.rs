//! Stands for miette: a report is the last label's place and the message, `place N: message`, with no drawing of the source.
use std::fmt::Write;

pub struct LabeledSpan {
    offset: usize,
}

impl LabeledSpan {
    pub fn at_offset(offset: usize, _label: impl Into<String>) -> Self {
        LabeledSpan { offset }
    }
}

pub struct Report {
    pub labels: Vec<LabeledSpan>,
    pub message: String,
}

impl Report {
    pub fn with_source_code(self, _source: String) -> Self {
        self
    }
}

impl AsRef<Report> for Report {
    fn as_ref(&self) -> &Report {
        self
    }
}

#[macro_export]
macro_rules! miette {
    (labels = $labels:expr, $($message:tt)*) => {
        $crate::Report { labels: $labels, message: format!($($message)*) }
    };
}

pub struct GraphicalTheme;

impl GraphicalTheme {
    pub fn unicode_nocolor() -> Self {
        GraphicalTheme
    }
}

pub struct GraphicalReportHandler;

impl GraphicalReportHandler {
    #[allow(clippy::new_without_default)]
    pub fn new() -> Self {
        GraphicalReportHandler
    }

    pub fn with_theme(self, _theme: GraphicalTheme) -> Self {
        self
    }

    /// The Rust adds the error's own label last.
    pub fn render_report(&self, out: &mut String, report: &Report) -> std::fmt::Result {
        let place = report.labels.last().map_or(0, |label| label.offset);
        write!(out, "place {place}: {}", report.message)
    }
}
