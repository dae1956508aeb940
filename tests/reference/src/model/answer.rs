//! What an operation answers: a value, or the number it refuses by.

pub type Answer<T> = Result<T, u32>;

/// One check of an operation: refused by the number unless the condition holds.
pub fn require(condition: bool, number: u32) -> Answer<()> {
    if condition {
        Ok(())
    } else {
        Err(number)
    }
}
