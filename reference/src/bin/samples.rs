//! Writes the sample logs of `playlog`.
//!
//! usage: samples OUTDIR

use std::path::Path;
use std::process::ExitCode;
use std::{env, fs, io};

use reference::examples::all;

fn write(dir: &Path) -> io::Result<()> {
    fs::create_dir_all(dir)?;
    for example in all() {
        fs::write(dir.join(format!("{}.log", example.name)), &example.log)?;
        fs::write(
            dir.join(format!("{}.expected", example.name)),
            example.expected(),
        )?;
    }
    Ok(())
}

fn main() -> ExitCode {
    let Some(dir) = env::args().nth(1) else {
        eprintln!("usage: samples OUTDIR");
        return ExitCode::from(2);
    };
    match write(Path::new(&dir)) {
        Ok(()) => ExitCode::SUCCESS,
        Err(error) => {
            eprintln!("cannot write the sample logs to {dir}: {error}");
            ExitCode::from(1)
        }
    }
}
