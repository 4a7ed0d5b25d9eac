//! Moves the code of all libraries, to see what depends on where a loop stands.

use std::arch::global_asm;

/// So many bytes, of the variable `SHIFT` when the benchmark is built.
const SHIFT: usize = match option_env!("SHIFT") {
    Some(number) => match usize::from_str_radix(number, 10) {
        Ok(number) => number,
        Err(_) => panic!("SHIFT is no number"),
    },
    None => 0,
};

// A function that nobody calls. The linker puts this crate's functions first, and
// is told to keep it.
global_asm!(
    ".pushsection .text.shift, \"axR\", @progbits",
    ".balign 16",
    ".skip {}",
    ".popsection",
    const SHIFT,
);
