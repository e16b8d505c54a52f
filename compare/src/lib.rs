//! Document 01, crate pretty 0.12.5 and our static library beside each other. README.md says what each program does.

pub mod calls;
pub mod known;
pub mod loads;
pub mod made;
pub mod make;
pub mod model;
pub mod programs;
pub mod tables;

#[cfg(archive)]
pub mod archive;
#[cfg(pretty)]
extern crate pretty;
#[cfg(pretty)]
pub mod beside;
#[cfg(pretty)]
pub mod differences;
