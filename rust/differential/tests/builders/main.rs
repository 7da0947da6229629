//! The wrapper's builders of commands against the plans of this crate, the oracle and the library.
mod accepted;
mod build;
mod bytes;
