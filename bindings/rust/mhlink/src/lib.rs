//! A runtime for dynamic calls in the style of `java.lang.invoke`, and a planner for inline caches.
//!
//! This crate wraps libmhlink, whose functions are proved to meet their contracts; this crate itself
//! is only tested. The documentation of the library is in `mhlink.h` and in `docs/` of its
//! repository.
//!
//! ```
//! use mhlink::{Limits, Machine, Outcome, Value};
//!
//! let definition = r#"{"version": 2, "points": [], "sites": [
//!     {"name": "negate", "type": "(int)int", "target": ["op", "ineg"], "links": []}]}"#;
//! let mut machine = Machine::open(definition, 1, Limits::default())?;
//! let negate = machine.site("negate")?;
//! let reply = machine.call(0, negate, &[Value::Int(7)])?;
//! assert_eq!(reply.outcome, Outcome::Value(Value::Int(-7)));
//! # Ok::<(), mhlink::Error>(())
//! ```

mod desk;
mod error;
mod limits;
mod machine;
mod numbers;
mod planner;
mod raw;
mod value;

pub use desk::{Caller, Desk};
pub use error::Error;
pub use limits::{Limits, OldHits, Usage};
pub use machine::Machine;
pub use mhlink_sys as sys;
pub use numbers::{Link, Plan, Point, Site, Snapshot};
pub use planner::{ProblemLink, Selection, plan};
pub use value::{Outcome, Reply, Throw, Value};
