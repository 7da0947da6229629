//! The vectors: published ones, and others from outside.
mod bank;
mod calendar;
mod days;
mod given;
mod journals;
mod lms;
mod sha256;
mod stored;
mod text;
mod till;
