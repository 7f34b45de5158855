//! The second program: what the pod table check must answer, worked out from
//! its definitions by the plainest means, and the means to hold the library
//! and the program against it.

pub mod alike;
pub mod answer;
pub mod fit;
pub mod flow;
pub mod hard;
#[cfg(feature = "table")]
pub mod library;
pub mod make;
pub mod program;
pub mod random;
pub mod ranks;
pub mod spoil;
pub mod stack;
pub mod table;
pub mod tree;
