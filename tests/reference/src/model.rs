//! The model: the product's operations written again from the papers. It shares no code and no table with the product.

pub mod answer;
pub mod board;
pub mod chain;
pub mod dealing;
pub mod draw;
pub mod equality;
pub mod exponent;
pub mod group;
pub mod message;
pub mod modular;
pub mod plots;
pub mod primes;
pub mod record;
pub mod round;
pub mod sha256;
pub mod share;
pub mod sharing;
pub mod table;
