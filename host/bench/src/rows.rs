//! What is timed, and the rows that come of it.

use crate::inputs::Input;
use crate::timing::Times;
use std::fmt;
use trials::flat::Flat;

/// What a call of the port is timed beside.
pub const PLAIN: &str = "plain Rust";
pub const CRATE: &str = "the crate";

/// How a call takes types.
pub const BYTES: &str = "bytes";
pub const FLAT: &str = "flat";

/// A call that is timed on any type.
pub struct Call {
    pub name: &'static str,
    pub form: &'static str,
    pub beside: &'static str,
    pub time: fn(&Flat) -> Times,
}

impl Call {
    /// Times the call.
    pub fn row(&self, (input, flat): &Input) -> Row {
        let Call { name, form, beside, time } = *self;
        Row { call: name, form, input, nodes: flat.kinds.len(), beside, times: time(flat) }
    }
}

/// A call on an input, and its times.
pub struct Row {
    pub call: &'static str,
    pub form: &'static str,
    pub input: &'static str,
    pub nodes: usize,
    pub beside: &'static str,
    pub times: Times,
}

/// One line of seven columns, with tabs between them; the times are the last two.
impl fmt::Display for Row {
    fn fmt(&self, to: &mut fmt::Formatter) -> fmt::Result {
        let Row { call, form, input, nodes, beside, times } = self;
        write!(to, "{call}\t{form}\t{input}\t{nodes}\t{beside}\t{:.3}\t{:.3}", times.0, times.1)
    }
}
