//! Writes the stored vectors of a program: OUTDIR/stdin and OUTDIR/stdout.
//!
//! usage: vectors PROGRAM OUTDIR

use std::path::Path;
use std::process::ExitCode;
use std::{env, fs, io};

use reference::vectors::{vectors, Vectors, PROGRAMS};

fn write(vectors: &Vectors, directory: &Path) -> io::Result<()> {
    fs::create_dir_all(directory)?;
    fs::write(directory.join("stdin"), &vectors.input)?;
    fs::write(directory.join("stdout"), &vectors.output)
}

fn main() -> ExitCode {
    let arguments: Vec<String> = env::args().skip(1).collect();
    let [program, directory] = arguments.as_slice() else {
        eprintln!("usage: vectors {} OUTDIR", PROGRAMS.join("|"));
        return ExitCode::from(2);
    };
    let Some(made) = vectors(program) else {
        eprintln!("no program has vectors under the name {program}");
        return ExitCode::from(2);
    };
    match write(&made, Path::new(directory)) {
        Ok(()) => {
            let (cases, read, printed) = (made.cases, made.input.len(), made.output.len());
            println!("{cases} cases, stdin {read} bytes, stdout {printed} bytes");
            ExitCode::SUCCESS
        }
        Err(error) => {
            eprintln!("{directory}: {error}");
            ExitCode::FAILURE
        }
    }
}
