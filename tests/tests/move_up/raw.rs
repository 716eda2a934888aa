//! The C function of the move up. It is declared here and not with the others, so that these can be linked
//! with an archive that has no move up.

use brawnesk_tests::ffi::Answer;

#[cfg(not(no_library))]
extern "C" {
    fn brawnesk_move_up(image: *const u8, length: usize, out: *mut u8, out_length: usize) -> u64;
}

#[cfg(no_library)]
unsafe fn brawnesk_move_up(_: *const u8, _: usize, _: *mut u8, _: usize) -> u64 {
    panic!("libabi.a is absent: build it (make library), or set BRAWNESK_LIB_DIR")
}

/// `brawnesk_move_up`: when done, the length of the image at the front of `out`.
pub fn move_up(image: &[u8], out: &mut [u8]) -> Answer {
    let (image, length) = (image.as_ptr(), image.len());
    let (out, out_length) = (out.as_mut_ptr(), out.len());
    // SAFETY: both pointers and lengths are those of borrowed slices; the image is only read, and the
    // buffer, which is borrowed alone, is written inside only.
    Answer::decode(unsafe { brawnesk_move_up(image, length, out, out_length) })
}
