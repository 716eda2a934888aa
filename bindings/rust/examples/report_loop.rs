//! Prints the rows of a table that a user's session may read: `report_loop IMAGE TABLE USER`. The twin
//! of examples/report_loop.c.

use brawnesk::{Image, Refusal};
use std::process::ExitCode;

/// A row of the sample table: a tag of 4 bytes and a text of 12.
const WIDTH: usize = 16;

fn report(image: Image, table: &[u8], user: &str) -> Result<(), Refusal> {
    let session = image.open(user)?;
    let mut buffer = vec![0; table.len()];
    for row in session.read(image, table, WIDTH, &mut buffer)? {
        let (tag, text) = row.split_at(4);
        let tag = u32::from_le_bytes(tag.try_into().expect("four bytes"));
        println!("{tag} {}", String::from_utf8_lossy(text));
    }
    Ok(())
}

fn main() -> std::io::Result<ExitCode> {
    let arguments: Vec<String> = std::env::args().skip(1).collect();
    let [image, table, user] = &arguments[..] else {
        eprintln!("usage: report_loop IMAGE TABLE USER");
        return Ok(ExitCode::from(2));
    };
    let (image, table) = (std::fs::read(image)?, std::fs::read(table)?);
    let Err(refusal) = report(Image::new(&image), &table, user) else {
        return Ok(ExitCode::SUCCESS);
    };
    println!("refused {}", refusal.number());
    Ok(ExitCode::FAILURE)
}
