//! The figures of document 02 on a book.
mod days;
mod due;
mod fees;
mod parties;
