//! The proved functions through their static library, and the sets and texts on which they are compared with the second solver.

pub mod calls;
pub mod cases;
pub mod count;
pub mod full;
pub mod memory;
pub mod odd;
pub mod plot;
pub mod proved;
pub mod sets;
pub mod texts;
