//! Links libbarkcushion.a: from the folder in BARKCUSHION_LIB, else from target/staticlib of the repository.
use std::{env, path::Path, path::PathBuf, process::exit};

fn stop(why: &str) -> ! {
    eprintln!("{why}");
    exit(1)
}

fn main() {
    println!("cargo:rerun-if-env-changed=BARKCUSHION_LIB");
    let var = |name| env::var(name).unwrap_or_default();
    if (var("CARGO_CFG_TARGET_ARCH").as_str(), var("CARGO_CFG_TARGET_OS").as_str()) != ("x86_64", "linux") {
        stop("Barkcushion's archive is for x86-64 Linux only.");
    }
    let folder = match env::var_os("BARKCUSHION_LIB") {
        Some(folder) => PathBuf::from(folder),
        None => Path::new(&var("CARGO_MANIFEST_DIR")).join("../target/staticlib"),
    };
    let archive = folder.join("libbarkcushion.a");
    println!("cargo:rerun-if-changed={}", archive.display());
    if !archive.is_file() {
        let archive = archive.display();
        stop(&format!("{archive} is missing: run `sh tools/archives.sh`, or name its folder in BARKCUSHION_LIB."));
    }
    println!("cargo:rustc-link-search=native={}", folder.display());
    println!("cargo:rustc-link-lib=static=barkcushion");
}
