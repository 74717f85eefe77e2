//! What the two programs of this package share: the words, and the running of cases on them. Without Miralis's text there is nothing here.

#[cfg(have_miralis)]
mod image;
#[cfg(have_miralis)]
pub mod program;
#[cfg(have_miralis)]
pub mod streams;
