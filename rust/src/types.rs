//! What validation returns.

/// The types of a valid module. No method shows them.
#[derive(Debug)]
pub struct Types {
    _private: (),
}

impl Types {
    pub(crate) fn new() -> Types {
        Types { _private: () }
    }
}
