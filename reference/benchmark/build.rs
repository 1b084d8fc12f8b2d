//! Links `libsha1_c.a`, which `rt lib` in the repository's crates/sha1_c writes to out/ there, and
//! libsrtp2 where its feature is on. `TINDRABEK_LIB_DIR` names another folder, as for `tindrabek`.

use std::env;
use std::path::PathBuf;

fn main() {
    println!("cargo:rerun-if-env-changed=TINDRABEK_LIB_DIR");
    let dir = match env::var_os("TINDRABEK_LIB_DIR") {
        Some(dir) => PathBuf::from(dir),
        None => {
            let own = env::var_os("CARGO_MANIFEST_DIR").expect("cargo names the crate's folder");
            PathBuf::from(own).join("../../crates/sha1_c/out")
        }
    };
    let library = dir.join("libsha1_c.a");
    println!("cargo:rerun-if-changed={}", library.display());
    assert!(library.exists(), "{} is not there: run scripts/benchmark", library.display());
    println!("cargo:rustc-link-search=native={}", dir.display());
    println!("cargo:rustc-link-lib=static=sha1_c");
    if env::var_os("CARGO_FEATURE_LIBSRTP2").is_some() {
        println!("cargo:rustc-link-lib=srtp2");
    }
}
