//! A program without `std` and without a heap, as for a small board: it shows MARA's session, and the rows of the
//! sample table that she may read. It takes `write` and `abort` from the C library; a board has its own in their
//! place.

#![no_std]
#![no_main]

use brawnesk::{Image, Refusal, TAG};
use core::fmt::{self, Write};
use core::panic::PanicInfo;

/// A row of the sample table: a tag of 4 bytes and a text of 12.
const WIDTH: usize = 16;

static IMAGE: &[u8] = include_bytes!("../../../sample/cooperative.img");
static TABLE: &[u8] = include_bytes!("../../../sample/table.bin");

#[link(name = "c")]
extern "C" {
    fn write(file: i32, bytes: *const u8, length: usize) -> isize;
    fn abort() -> !;
}

#[panic_handler]
fn panic(_: &PanicInfo) -> ! {
    unsafe { abort() }
}

/// The `core` of a hosted target names it. Nothing calls it where a panic aborts.
#[no_mangle]
extern "C" fn rust_eh_personality() {}

struct Output;

impl Write for Output {
    fn write_str(&mut self, text: &str) -> fmt::Result {
        let written = unsafe { write(1, text.as_ptr(), text.len()) };
        if usize::try_from(written) == Ok(text.len()) {
            Ok(())
        } else {
            Err(fmt::Error)
        }
    }
}

fn report(mut output: Output) -> Result<fmt::Result, Refusal> {
    let image = Image::new(IMAGE);
    let session = image.open("MARA")?;
    let mut told = writeln!(output, "{}", session.shown(image));
    for row in session.read(image, TABLE, WIDTH, &mut [0; 128])? {
        let (tag, text) = row.split_at(TAG);
        let tag = tag
            .iter()
            .rev()
            .fold(0, |tag, byte| tag << 8 | u32::from(*byte));
        let text = core::str::from_utf8(text).unwrap_or("not text");
        told = told.and_then(|()| writeln!(output, "{tag} {text}"));
    }
    Ok(told)
}

#[no_mangle]
extern "C" fn main() -> i32 {
    match report(Output) {
        Ok(Ok(())) => 0,
        Ok(Err(_)) => 2,
        Err(refusal) => {
            let _ = writeln!(Output, "{refusal}");
            1
        }
    }
}
