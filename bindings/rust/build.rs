//! Links the proved library, libmfrc531.a. The first of these folders that has it is taken:
//!
//! 1. the one that the environment variable MFRC531_LIB_DIR names, and no other where it is set. A relative one counts from the folder in which
//!    cargo was called, and where it is not there, from this crate's own; a line says which was taken;
//! 2. the one that pkg-config knows for mfrc531;
//! 3. build/ of the repository, where `make library` puts it.
//!
//! A build script of a crate that depends on this one finds the folder in DEP_MFRC531_LIBDIR.
use std::env;
use std::path::{Path, PathBuf};
use std::process::Command;

const ARCHIVE: &str = "libmfrc531.a";
const VARIABLE: &str = "MFRC531_LIB_DIR";

fn main() {
    for variable in [VARIABLE, "PKG_CONFIG", "PKG_CONFIG_PATH", "PKG_CONFIG_LIBDIR", "PKG_CONFIG_SYSROOT_DIR"] {
        println!("cargo::rerun-if-env-changed={variable}");
    }
    match folder() {
        Ok(folder) => {
            println!("cargo::rerun-if-changed={}", folder.join(ARCHIVE).display());
            println!("cargo::rustc-link-search=native={}", folder.display());
            println!("cargo::rustc-link-lib=static=mfrc531");
            println!("cargo::metadata=libdir={}", folder.display());
        }
        Err(sentence) => println!("cargo::error={sentence}"),
    }
}

/// The folder of the library, or the sentence that says what to do.
fn folder() -> Result<PathBuf, String> {
    let own = PathBuf::from(env::var_os("CARGO_MANIFEST_DIR").unwrap_or_default());
    if let Some(named) = env::var_os(VARIABLE).filter(|named| !named.is_empty()) {
        let named = PathBuf::from(named);
        return from_variable(&named, &own).ok_or_else(|| {
            format!("{VARIABLE} is {}, where no {ARCHIVE} lies: set it to the folder that has it, or run `make library`.", named.display())
        });
    }
    from_pkg_config().into_iter().chain([own.join("../../build")]).find_map(having).ok_or_else(|| {
        format!("{ARCHIVE} is not found: run `make library` in the bench's repository, or set {VARIABLE} to the folder that has it.")
    })
}

/// The folder, in full, if it has the library.
fn having(folder: PathBuf) -> Option<PathBuf> {
    folder.join(ARCHIVE).is_file().then(|| folder.canonicalize().unwrap_or(folder))
}

fn from_variable(named: &Path, own: &Path) -> Option<PathBuf> {
    if named.is_absolute() {
        return having(named.to_path_buf());
    }
    let taken = called_in().into_iter().chain([own.to_path_buf()]).map(|start| start.join(named)).find_map(having)?;
    println!("cargo::warning={VARIABLE}={} is taken as {}", named.display(), taken.display());
    Some(taken)
}

/// Where cargo was called, as well as can be told: cargo starts this script in the crate's own folder, so its parent process is asked first, and
/// then the shell's variable.
fn called_in() -> Vec<PathBuf> {
    let mut folders = Vec::new();
    #[cfg(unix)]
    folders.extend(std::fs::read_link(format!("/proc/{}/cwd", std::os::unix::process::parent_id())).ok());
    folders.extend(env::var_os("PWD").map(PathBuf::from));
    folders
}

fn from_pkg_config() -> Vec<PathBuf> {
    let program = env::var_os("PKG_CONFIG").unwrap_or_else(|| "pkg-config".into());
    let asked = |question: &str| {
        let output = Command::new(&program).args([question, "mfrc531"]).output().ok().filter(|output| output.status.success());
        output.and_then(|output| String::from_utf8(output.stdout).ok()).unwrap_or_default()
    };
    let libdir = asked("--variable=libdir").trim().to_string();
    let flags = asked("--libs-only-L");
    let searched = flags.split_whitespace().filter_map(|flag| flag.strip_prefix("-L"));
    [libdir.as_str()].into_iter().chain(searched).filter(|folder| !folder.is_empty()).map(PathBuf::from).collect()
}
