//! Makes the terminal raw and panics: `terminal_check` looks at what is left of it.
#[allow(dead_code)]
#[path = "../src/terminal/tty.rs"]
mod tty;

fn main() {
    let _tty = tty::Tty::open(tty::Out::Stdout).unwrap();
    panic!("with the terminal raw");
}
