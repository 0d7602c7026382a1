//! The parent that prophesee_raw.rs expects, and that module twice: as it is, and with a spacing that can be set.
use crate::{EventStream, EventStreamBuilder};
use std::{error::Error, fmt, io};

#[path = "../cut/prophesee_raw.rs"]
pub mod prophesee_raw;
#[path = "../cut/spaced.rs"]
pub mod spaced;

include!("../cut/reading.rs");
