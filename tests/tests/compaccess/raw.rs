//! The C functions of request R-12. They are declared here and not with the others, so that these can be
//! linked with an archive that has not these two.

use brawnesk_tests::compaccess::HolderCall;
use brawnesk_tests::ffi::Answer;

#[cfg(not(no_library))]
extern "C" {
    fn brawnesk_compaccess_users(
        image: *const u8,
        length: usize,
        out: *mut u8,
        out_length: usize,
    ) -> u64;
    fn brawnesk_clear_compaccess(
        image: *const u8,
        length: usize,
        out: *mut u8,
        out_length: usize,
    ) -> u64;
}

#[cfg(no_library)]
unsafe fn brawnesk_compaccess_users(_: *const u8, _: usize, _: *mut u8, _: usize) -> u64 {
    panic!("libabi.a is absent: build it (make library), or set BRAWNESK_LIB_DIR")
}

#[cfg(no_library)]
unsafe fn brawnesk_clear_compaccess(_: *const u8, _: usize, _: *mut u8, _: usize) -> u64 {
    panic!("libabi.a is absent: build it (make library), or set BRAWNESK_LIB_DIR")
}

/// `brawnesk_compaccess_users` or `brawnesk_clear_compaccess`: when done, how many bytes are at the front of
/// `out`.
pub fn ask(call: HolderCall, image: &[u8], out: &mut [u8]) -> Answer {
    let (image, length) = (image.as_ptr(), image.len());
    let (out, out_length) = (out.as_mut_ptr(), out.len());
    // SAFETY: both pointers and lengths are those of borrowed slices; the image is only read, and the
    // buffer, which is borrowed alone, is written inside only.
    Answer::decode(unsafe {
        match call {
            HolderCall::Users => brawnesk_compaccess_users(image, length, out, out_length),
            HolderCall::Clear => brawnesk_clear_compaccess(image, length, out, out_length),
        }
    })
}
