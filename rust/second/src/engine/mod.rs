//! The calls, a file each.
//!
//! Every call checks its refusals in the order of their numbers and writes only
//! when none is left, so that a refused call changes nothing. One refusal stands
//! elsewhere: a list of windows is checked after 3, before its removals.

mod close;
mod event;
mod flush;
mod forecast;
mod mean;
mod open;
mod query;
mod remove;
mod remove_all;
mod start;
mod step;
mod wrong_ways;

pub use close::close;
pub use event::event;
pub use flush::flush;
pub use forecast::{Forecast, Stop, forecast};
pub use mean::{Mean, mean};
pub use open::open;
pub use query::{Found, query};
pub use remove::remove;
pub use remove_all::remove_all;
pub use start::start;
pub use step::step;

pub(crate) use query::query_with;
pub(crate) use step::step_with;
