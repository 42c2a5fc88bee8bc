#![forbid(unsafe_code)]
//! Cases for the four services, the laws they must keep, and the comparison
//! of implementations.

mod calls;
mod case;
mod changes;
mod generator;
mod implementation;
mod laws;
mod scene;

pub use calls::{call, fuzz_input};
pub use case::{Case, Service};
pub use generator::Generator;
pub use implementation::{implementations, Implementation, REFERENCE};
pub use laws::{compare, examine, Outcome, Violation};
