//! The answers of a walk.

/// What a node carries: in a narrow plan 0 to 255, in a wide one 0 to 16,777,215.
pub type Label = u32;

/// The label of a divider line, in plans of both formats. It is a node as any other, but not an entry: [`measure`](crate::measure) doesn't count it.
pub const DIVIDER: Label = 0;

/// The word among the answers for a letter that leads nowhere, in plans of both formats.
pub const NOWHERE: u32 = 4_294_967_295;

/// The answers of a walk in their order: a label, or none for nowhere. A rest of one to three bytes is no answer.
///
/// ```
/// let answers = [99, 0, 0, 0, 255, 255, 255, 255, 7];
/// assert!(mealplan::labels(&answers).eq([Some(99), None]));
/// ```
pub fn labels(answers: &[u8]) -> impl Iterator<Item = Option<Label>> {
    answers.as_chunks().0.iter().map(|answer| Some(u32::from_le_bytes(*answer)).filter(|label| *label != NOWHERE))
}
