//! Finds the static library: in the folder that PLATES_LIB names, else where bin/library (of the repository) or bin/install puts it.
use std::env;
use std::path::PathBuf;
use std::process::exit;

fn main() {
    println!("cargo:rerun-if-env-changed=PLATES_LIB");
    let here = PathBuf::from(env::var_os("CARGO_MANIFEST_DIR").expect("cargo names the folder of the manifest"));
    let folders = match env::var_os("PLATES_LIB") {
        Some(folder) => vec![PathBuf::from(folder)],
        None => vec![here.join("../../target/staticlib"), here.join("../../..")],
    };
    match folders.iter().find(|folder| folder.join("libplates.a").is_file()) {
        Some(folder) => {
            println!("cargo:rerun-if-changed={}", folder.join("libplates.a").display());
            println!("cargo:rustc-link-search=native={}", folder.display());
            println!("cargo:rustc-link-lib=static=plates");
        }
        None => {
            let sought: Vec<_> = folders.iter().map(|folder| folder.display().to_string()).collect();
            eprintln!("libplates.a is not in {}. Run bin/library in the repository, or name its folder in PLATES_LIB.", sought.join(" nor in "));
            exit(1)
        }
    }
}
