//! The papers' figures and the order of the checks, through the library alone.
mod case;
mod credit;
mod days;
mod defaults;
mod desk;
mod due;
mod edges;
mod faults;
mod fees;
mod keys;
mod leaves;
mod locks;
mod names;
mod order;
mod signatures;
