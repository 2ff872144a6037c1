//! One call, made through the C boundary and by the model.
use super::calls::{check_boundary, perform, Call, Outcome};
use super::model;

/// Makes the call with outputs filled with `fill` between guards of the value `guard`, and compares answer and buffers with
/// the model.
pub fn compare(call: &Call, fill: u8, guard: u8) -> Outcome {
    let outcome = perform(call, fill, guard);
    check_boundary(call, &outcome, fill);
    let expected = model::outcome(call, fill);
    let (found, wanted) = (outcome.answer, expected.answer);
    assert!(found == wanted, "answered {found:010X}, expected {wanted:010X}: {}", call.line());
    for (i, (found, wanted)) in outcome.outputs.iter().zip(&expected.outputs).enumerate() {
        assert!(found == wanted, "output {i} is {found:02X?}, expected {wanted:02X?}: {}", call.line());
    }
    outcome
}
