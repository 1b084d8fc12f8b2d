//! Links `libsrtp_c.a`, which `rt lib` in the repository's crates/srtp_c writes to out/ there. `TINDRABEK_LIB_DIR` names another folder.
use std::env;
use std::path::PathBuf;

fn main() {
    let dir = match env::var_os("TINDRABEK_LIB_DIR") {
        Some(dir) => PathBuf::from(dir),
        None => PathBuf::from(
            env::var_os("CARGO_MANIFEST_DIR").expect("cargo names the crate's folder"),
        )
        .join("../../crates/srtp_c/out"),
    };
    let library = dir.join("libsrtp_c.a");
    println!("cargo:rerun-if-env-changed=TINDRABEK_LIB_DIR");
    println!("cargo:rerun-if-changed={}", library.display());
    assert!(
        library.exists(),
        "{} is not there: run `rt lib` in the repository's crates/srtp_c, or set TINDRABEK_LIB_DIR",
        library.display()
    );
    // A full path, since other crates' builds run in other folders.
    let dir = dir.canonicalize().expect("a folder that is there has a full path");
    println!("cargo:rustc-link-search=native={}", dir.display());
    println!("cargo:rustc-link-lib=static=srtp_c");
    // For the build scripts of crates that use this one: DEP_SRTP_C_DIR.
    println!("cargo:dir={}", dir.display());
}
