// Stand-in for the dense algebra: floats.rs names this marker trait, and nothing else of it is used.
pub trait BlasFloatT: 'static {}
impl BlasFloatT for f32 {}
impl BlasFloatT for f64 {}
