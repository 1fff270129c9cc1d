//! Links the static archive that STOCKLOG_LIB names.

use std::path::Path;
use std::{env, fs, process};

fn stop(message: &str) -> ! {
    eprintln!("{message}");
    process::exit(1);
}

fn main() {
    println!("cargo:rerun-if-env-changed=STOCKLOG_LIB");
    let Ok(archive) = env::var("STOCKLOG_LIB") else {
        stop("STOCKLOG_LIB is not set: it must name the archive to test, such as crates/stocklog/out/libstocklog.a with its whole path");
    };
    let Ok(out) = env::var("OUT_DIR") else {
        stop("OUT_DIR is not set: cargo runs this script");
    };
    println!("cargo:rerun-if-changed={archive}");
    let copy = Path::new(&out).join("libstocklog.a");
    if let Err(error) = fs::copy(&archive, copy) {
        stop(&format!(
            "the archive that STOCKLOG_LIB names cannot be read: {archive}: {error}"
        ));
    }
    println!("cargo:rustc-link-search=native={out}");
    println!("cargo:rustc-link-lib=static=stocklog");
}
