//! Sobumikeyo for Rust: two samples of coded symbols side by side, and which habits they share.
//!
//! A sitting has two samples. It is fed at a desk of a [`Store`], and up to eight desks share one store. A [`Report`] splits what was
//! seen into contexts (what came just before) that both samples treat alike and contexts that are one sample's own.
//!
//! Each sample counts its symbols from place depth + 1 on, for contexts of every length, so that deep and shallow trees are scored over the
//! same acts. The symbols before that place are only what came just before.
//!
//! ```
//! use sobumikeyo::{Desk, Kind, Sample, Store, PLAIN_WEIGHT};
//!
//! let mut store = Store::new(64)?;
//! store.open(Desk(0), 2, 1, PLAIN_WEIGHT, 64)?;
//! store.feed_all(Desk(0), Sample::FIRST, &[0, 1, 0, 1, 0, 1, 0, 1])?;
//! store.feed_all(Desk(0), Sample::SECOND, &[0, 0, 1, 0, 0, 1, 0, 0])?;
//! let report = store.report(Desk(0))?;
//! assert_eq!(report.score, -80704);
//! let shared: Vec<_> = report.rows.iter().filter(|row| row.kind == Kind::Shared).collect();
//! assert_eq!(shared[0].context.symbols(), [1]);
//! assert_eq!(shared[0].counts[..2], [5, 0]);
//! # Ok::<(), sobumikeyo::Refusal>(())
//! ```
//!
//! A call that cannot do what it was asked answers a [`Refusal`] and changes nothing. A store is used by one call at a time: every call that
//! writes asks for `&mut`. Every call is one of the C library's functions, whose code is proved; what they promise is in the repository's
//! `docs/PROMISES.md`.

#[cfg(doctest)]
mod borrows;
mod calls;
mod chart;
mod file;
mod refusal;
mod report;
mod salvage;
mod store;

pub use chart::{Chart, Point};
pub use file::{read, write, SittingFile};
pub use refusal::{Refusal, Stopped};
pub use report::{Context, Kind, Report, Row, ROW_WIDTH};
pub use salvage::{salvage, Lost, Salvaged};
pub use store::{store_size, Desk, Sample, Store, LARGEST_WEIGHT, PLAIN_WEIGHT};
