//! The library, asked about maps beside the model.

use super::MapCall;
use crate::ffi::Answer;
use crate::model;
use crate::row_calls::Lent;
use std::hint::black_box;

/// Asks the library. The image and a lent map have to stay as they are; what else is lent is looked at by the caller.
pub fn ask(image: &[u8], call: &MapCall, lent: &mut Lent) -> Answer {
    let (own_image, own_call) = (image.to_vec(), call.clone());
    let answer = own_call.by_library(black_box(&own_image), black_box(lent));
    assert!(*black_box(&own_image) == *image, "{call:?}: image changed");
    assert!(*black_box(&own_call) == *call, "{call:?}: map changed");
    answer
}

/// Asks both. The answer and every lent byte have to be the model's.
pub fn compare(image: &[u8], call: &MapCall, lent: &Lent, case: &str) -> Answer {
    let (mut given, mut wanted) = (lent.clone(), lent.clone());
    let answer = ask(image, call, &mut given);
    let expected = call.by_model(&model::accepted(image), &mut wanted);
    assert_eq!(answer, expected, "{case}: {call:?}");
    assert_eq!(given.difference(&wanted), None, "{case}: {call:?}");
    answer
}
