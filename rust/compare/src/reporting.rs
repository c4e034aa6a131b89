//! How inputs, answers and the last table are printed.

mod formats;
mod times_met;

pub use formats::{hex, shown, SHOWN};
pub use times_met::print_times_met;
