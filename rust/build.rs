// Links the archive that `./prove.sh sentivolus` writes. SENTIVOLUS_LIB names another folder that holds it; a relative one counts from the
// folder that cargo was called in, or from this package where that is not known.
use std::path::PathBuf;

fn main() {
    let package = PathBuf::from(std::env::var("CARGO_MANIFEST_DIR").expect("cargo sets CARGO_MANIFEST_DIR"));
    let called_in = std::env::var("PWD").map_or(package.clone(), PathBuf::from);
    let folder = match std::env::var("SENTIVOLUS_LIB") {
        Ok(named) => called_in.join(named), // of an absolute path that path alone
        Err(_) => package.join("../target/staticlib"),
    };
    let archive = folder.join("libsentivolus.a");
    println!("cargo:rerun-if-env-changed=SENTIVOLUS_LIB");
    if std::env::var("SENTIVOLUS_LIB").is_ok_and(|named| !named.starts_with('/')) {
        println!("cargo:rerun-if-env-changed=PWD"); // the same words name another folder there
    }
    println!("cargo:rerun-if-changed={}", archive.display());
    if !archive.is_file() {
        eprintln!("sentivolus: there is no archive {}", archive.display());
        eprintln!("sentivolus: make it by `./prove.sh sentivolus` in the repository's root, or name its folder in SENTIVOLUS_LIB");
        std::process::exit(1);
    }
    println!("cargo:rustc-link-search=native={}", folder.display());
    println!("cargo:rustc-link-lib=static=sentivolus");
}
