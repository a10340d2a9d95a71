//! Links the library under test: `MFRC531_LIB_DIR` is its folder, `MFRC531_LIB` its name without `lib` and `.a` (`mfrc531` if not given); and
//! beside it `crc_exports`, by which the checksum over slices is compared and timed. With the feature `stub` nothing is linked.

use std::env;

fn main() {
    println!("cargo:rerun-if-env-changed=MFRC531_LIB_DIR");
    println!("cargo:rerun-if-env-changed=MFRC531_LIB");
    if env::var_os("CARGO_FEATURE_STUB").is_some() {
        return;
    }
    let Ok(folder) = env::var("MFRC531_LIB_DIR") else {
        panic!("set MFRC531_LIB_DIR to the folder of the library under test, or give --features stub to do without it");
    };
    let name = env::var("MFRC531_LIB").unwrap_or_else(|_| "mfrc531".to_string());
    println!("cargo:rustc-link-search=native={folder}");
    for library in [name.as_str(), "crc_exports"] {
        println!("cargo:rerun-if-changed={folder}/lib{library}.a");
        println!("cargo:rustc-link-lib=static={library}");
    }
}
