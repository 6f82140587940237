//! The judge on the command line: the list program, the published files' digests, and document 01's cases.

use std::io::{Read, Write};

fn main() {
    let arguments: Vec<String> = std::env::args().skip(1).collect();
    let words: Vec<&str> = arguments.iter().map(String::as_str).collect();
    match words[..] {
        ["list"] => list(true),
        ["list", "--no-limit"] => list(false),
        ["sha"] => judge::PUBLISHED
            .iter()
            .for_each(|(file, digest)| println!("{digest}  {file}")),
        ["cases"] => judge::cases::all()
            .iter()
            .for_each(|(name, printed)| print!("{name}\n{printed}")),
        _ => {
            eprintln!("usage: judge list [--no-limit] | sha | cases");
            std::process::exit(2);
        }
    }
}

fn list(limit_60: bool) {
    let mut input = Vec::new();
    std::io::stdin()
        .read_to_end(&mut input)
        .expect("the input can be read");
    let printed = judge::list_program(&input, limit_60);
    std::io::stdout()
        .write_all(&printed)
        .expect("the output can be written");
}
