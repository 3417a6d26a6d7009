//! Stand-in for the crate `tracing`: its events are left out of the port, so nothing is evaluated.

/// Takes any event, such as `trace!("text")`, and does nothing.
#[macro_export]
macro_rules! trace {
    ($($event:tt)*) => {{}};
}

/// Takes any event, such as `debug!(?value, "text")`, and does nothing.
#[macro_export]
macro_rules! debug {
    ($($event:tt)*) => {{}};
}

/// Takes any event, such as `error!(name = value, "text")`, and does nothing.
#[macro_export]
macro_rules! error {
    ($($event:tt)*) => {{}};
}
