//! What the chart question answers.

/// How often, of the times that a sample saw a context, a symbol came next: for the samples that saw it, at places from depth + 1 on.
#[derive(Clone, Copy, Debug, PartialEq)]
pub enum Chart {
    /// Neither sample saw the context.
    Neither,
    /// Only the first did: its share, from 0 to 1.
    First(f64),
    /// Only the second did: its share.
    Second(f64),
    /// Both did.
    Both(Point),
}

/// Two shares and their difference.
#[derive(Clone, Copy, Debug, PartialEq)]
pub struct Point {
    pub first: f64,
    pub second: f64,
    /// First less second, rounded once.
    pub gap: f64,
}
