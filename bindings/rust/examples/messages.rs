//! Prints what this crate says of each number from 0 to 255. The twin of bindings/messages.c.

use brawnesk::Refusal;

fn main() {
    for number in 0..256 {
        println!("{number} {}", Refusal::new(number, 0).message());
    }
}
