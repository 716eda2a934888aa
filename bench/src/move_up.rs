//! The move up to edition 2, which there is no plain version of. It is declared here and not with the
//! other C functions, so that these can be linked with an archive that has no move up.

use crate::by_model;
use crate::calls::Call;
use brawnesk_tests::ffi::Answer;

/// False where the archive was absent or without the move up when this package was built.
pub const LINKED: bool = cfg!(not(no_move_up));

#[cfg(not(no_move_up))]
extern "C" {
    fn brawnesk_move_up(image: *const u8, length: usize, out: *mut u8, out_length: usize) -> u64;
}

#[cfg(no_move_up)]
unsafe fn brawnesk_move_up(_: *const u8, _: usize, _: *mut u8, _: usize) -> u64 {
    panic!("libabi.a is absent, or is one without the move up")
}

fn move_up(image: &[u8], out: &mut [u8]) -> Answer {
    let (image, length) = (image.as_ptr(), image.len());
    let (out, out_length) = (out.as_mut_ptr(), out.len());
    // SAFETY: both pointers and lengths are those of borrowed slices; the image is only read, and the
    // buffer, which is borrowed alone, is written inside only.
    Answer::decode(unsafe { brawnesk_move_up(image, length, out, out_length) })
}

pub const MOVE_UP: Call = Call {
    name: "move-up",
    function: "move_up",
    limit: None,
    shape: None,
    ours: |scene, out| move_up(&scene.image, &mut out.image),
    plain: None,
    model: |scene, out| by_model::move_up(&scene.image, &mut out.image),
};
