//! The proved library, the second program and the quick program, side by side:
//! each call is made through the border for C and Rust, and again on the others.

pub mod answers;
pub mod border;
pub mod calls;
pub mod clock;
pub mod full;
pub mod layout;
pub mod lent;
pub mod same;
pub mod shapes;
pub mod tables;
