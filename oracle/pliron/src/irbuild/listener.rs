//! Stand-in: a listener that does nothing.

pub struct DummyListener;
