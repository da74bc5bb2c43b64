//! The plan of a text.

use crate::{ffi, Refusal};

/// So many bytes suffice for the plan of every text of that length; [`plan`] asks for them.
pub fn output_size(text_len: usize) -> usize {
    ffi::bootplan_output_size(text_len)
}

/// Writes the plan of a text at the start of the output, and answers its length.
pub fn plan(text: &[u8], output: &mut [u8]) -> Result<usize, Refusal> {
    let mut written = 0;
    // SAFETY: both slices are good for their lengths, and do not overlap.
    let code = unsafe {
        ffi::bootplan_plan(
            text.as_ptr(),
            text.len(),
            output.as_mut_ptr(),
            output.len(),
            &mut written,
        )
    };
    Refusal::unless_done(code).map(|()| written)
}
