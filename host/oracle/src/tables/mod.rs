//! Stand-ins of the types that the source leans on, at the paths where it looks
//! for them. They hold what the source gives them and do nothing.

pub mod layout;
pub mod variations;
