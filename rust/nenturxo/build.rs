//! Finds the static library, builds it where it is missing, and links it.

use std::env;
use std::path::{Path, PathBuf};
use std::process::{Command, ExitCode};

/// The archive, as the linker and the file system name it.
const LIBRARY: &str = "nenturxo";
const ARCHIVE: &str = "libnenturxo.a";

/// A folder to take the archive from instead.
const FOLDER_VARIABLE: &str = "NENTURXO_LIB_DIR";

fn main() -> ExitCode {
    println!("cargo:rerun-if-changed=build.rs");
    println!("cargo:rerun-if-env-changed={FOLDER_VARIABLE}");
    match archive_folder() {
        Ok(folder) => {
            println!("cargo:rerun-if-changed={}", folder.join(ARCHIVE).display());
            println!("cargo:rustc-link-search=native={}", folder.display());
            println!("cargo:rustc-link-lib=static={LIBRARY}");
            ExitCode::SUCCESS
        }
        Err(reason) => {
            eprintln!("{reason}");
            ExitCode::FAILURE
        }
    }
}

/// The folder that has the archive, after building it if need be.
fn archive_folder() -> Result<PathBuf, String> {
    if let Some(folder) = env::var_os(FOLDER_VARIABLE) {
        return holding_the_archive(PathBuf::from(folder));
    }
    let root = repository_root()?;
    let crate_folder = root.join("crates").join(LIBRARY);
    let folder = crate_folder.join("out");
    if !folder.join(ARCHIVE).is_file() {
        prove_and_build(&crate_folder)?;
    }
    holding_the_archive(folder)
}

/// The folder two above this crate's.
fn repository_root() -> Result<PathBuf, String> {
    let here = env::var_os("CARGO_MANIFEST_DIR").ok_or("CARGO_MANIFEST_DIR is not set")?;
    let root = Path::new(&here).join("..").join("..");
    root.canonicalize()
        .map_err(|error| format!("{}: {error}", root.display()))
}

/// Proves the library and writes its archive. What that prints goes to standard
/// error, since cargo reads this program's standard output.
fn prove_and_build(crate_folder: &Path) -> Result<(), String> {
    let status = Command::new("rt")
        .arg("lib")
        .current_dir(crate_folder)
        .stdout(std::io::stderr())
        .status()
        .map_err(|error| format!("rt lib did not start: {error}"))?;
    if status.success() {
        Ok(())
    } else {
        Err(format!("rt lib: {status}"))
    }
}

/// The folder itself, if the archive is in it.
fn holding_the_archive(folder: PathBuf) -> Result<PathBuf, String> {
    if folder.join(ARCHIVE).is_file() {
        Ok(folder)
    } else {
        Err(format!("no {ARCHIVE} in {}", folder.display()))
    }
}
