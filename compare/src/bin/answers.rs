//! Writes the fixed list of the Rust's answers, and the one with mistakes: `cargo run --release --bin answers`.

use std::fs;
use std::path::Path;
use std::process::ExitCode;

use compare::both::Difference;
use compare::list;

fn main() -> ExitCode {
    match write_both() {
        Ok(()) => ExitCode::SUCCESS,
        Err(difference) => {
            println!("{difference}");
            ExitCode::FAILURE
        }
    }
}

fn write_both() -> Result<(), Difference> {
    let (text, reached) = list::written()?;
    write(&list::path(), &text);
    println!("{} sessions, {} bytes", list::SESSIONS, text.len());
    print!("{reached}");
    let mistaken = list::mistaken()?;
    write(&list::mistaken_path(), &mistaken);
    println!("with mistakes: {} bytes", mistaken.len());
    Ok(())
}

fn write(path: &Path, text: &str) {
    fs::create_dir_all(path.parent().expect("a list lies in a folder"))
        .expect("the folder can be made");
    fs::write(path, text).expect("a list can be written");
}
