//! The built program *function_text* against the model: `run` prints what the function that it is given
//! writes, by a value that the function holds, or the refusal.

use independent::lists;
use independent::random::Random;
use program_tests::function_text_agrees_with_model;

#[test]
fn edges_and_malformed_lists() {
    for case in lists::edges() {
        function_text_agrees_with_model(&case.list);
    }
    for list in lists::malformed_lists() {
        function_text_agrees_with_model(&list);
    }
}

#[test]
fn random_lists() {
    let mut random = Random::new(56);
    for _ in 0..200 {
        function_text_agrees_with_model(&lists::random_list(&mut random));
    }
    function_text_agrees_with_model(&lists::long_list(&mut random));
}
