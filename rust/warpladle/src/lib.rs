//! EPS native products (Metop and NOAA polar orbiters, EUMETSAT's generic product format): judged, read, cut and joined by a proved library.
//!
//! Every function takes any bytes of any length and gives a value or a [`Refused`], which has the fault, its place and words for both.
//!
//! ```no_run
//! # fn main() -> Result<(), Box<dyn std::error::Error>> {
//! let bytes = std::fs::read("product.eps")?;
//! let product = warpladle::Product::judged(&bytes)?;
//! for record in product.records() {
//!     println!("{} {} {} bytes", record.start, record.class, record.bytes.len());
//! }
//! # Ok(())
//! # }
//! ```
//!
//! A product that still arrives is fed to a [`Watch`], which keeps some four kilobytes however long it is. A month of products is counted by a [`Report`].
//! Scaled numbers and short times, as meters have them, are in [`meter`].
#![warn(missing_docs)]

mod answers;
mod fault;
mod field;
mod kinds;
pub mod meter;
mod product;
mod report;
mod time;
mod uth;
mod watch;

pub use fault::{Fault, Refused};
pub use field::{Field, FieldKind};
pub use kinds::{Class, Group};
pub use product::{arrival, extent, verdict, GroundPoint, Product, Record, Which};
pub use report::Report;
pub use time::{Moment, Time};
pub use uth::{humidity, Block};
pub use watch::{Waiting, Watch};

/// What the functions that may be refused give.
pub type Result<T> = std::result::Result<T, Refused>;
