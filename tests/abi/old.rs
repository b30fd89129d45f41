//! A program of layout 1, with its module: it compiles, and doesn't link with an
//! archive of another layout.

mod clundip_abi1;

use clundip_abi1::{RECORD_WORDS, create};

fn main() {
    let answer = create(&mut [0; RECORD_WORDS], &mut [0; 256], &mut [0; 512]);
    std::process::exit(answer.verdict as i32);
}
