// Links the static library that `rt lib` in crates/exports writes. BELTCAIRN_LIB names another folder that holds libexports.a.
use std::path::PathBuf;

fn main() {
    println!("cargo:rerun-if-env-changed=BELTCAIRN_LIB");
    let made = PathBuf::from(env!("CARGO_MANIFEST_DIR")).join("../../crates/exports/out");
    let folder = std::env::var_os("BELTCAIRN_LIB").map(PathBuf::from).unwrap_or(made);
    let archive = folder.join("libexports.a");
    if !archive.exists() {
        eprintln!(
            "{} is missing. Make it in the repository with: (cd crates/exports && rt lib)",
            archive.display()
        );
        eprintln!("or name the folder that holds libexports.a in BELTCAIRN_LIB.");
        std::process::exit(1);
    }
    println!("cargo:rerun-if-changed={}", archive.display());
    println!("cargo:rustc-link-search=native={}", folder.display());
    println!("cargo:rustc-link-lib=static=exports");
}
