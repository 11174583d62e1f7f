//! Brings the proved archive in: linked on x86-64, the processor it is made for; elsewhere in the
//! process of rust/host, which the kit's emulator runs.

use std::path::{Path, PathBuf};
use std::process::{Command, ExitCode};
use std::{env, fs};

fn main() -> ExitCode {
    match build() {
        Ok(()) => ExitCode::SUCCESS,
        Err(message) => {
            eprintln!("{message}");
            ExitCode::FAILURE
        }
    }
}

fn build() -> Result<(), String> {
    let repository = Path::new(&variable("CARGO_MANIFEST_DIR")?).join("../..");
    println!("cargo:rerun-if-env-changed=RUFFLEKNOLL_ARCHIVE");
    let archive = match env::var_os("RUFFLEKNOLL_ARCHIVE") {
        Some(path) => PathBuf::from(path),
        None => repository.join("target/staticlib/libruffleknoll.a"),
    };
    println!("cargo:rerun-if-changed={}", archive.display());
    if !archive.is_file() {
        let name = archive.display();
        return Err(format!("{name} is missing: `tools/staticlib` writes it"));
    }
    let directory = PathBuf::from(variable("OUT_DIR")?);
    match variable("CARGO_CFG_TARGET_ARCH")?.as_str() {
        "x86_64" => link(&archive, &directory),
        _ => host(&repository, &archive, &directory),
    }
}

/// The archive under the name by which the linker looks for it.
fn link(archive: &Path, directory: &Path) -> Result<(), String> {
    fs::copy(archive, directory.join("libruffleknoll.a")).map_err(|error| told(archive, &error))?;
    println!("cargo:rustc-link-search=native={}", directory.display());
    println!("cargo:rustc-link-lib=static=ruffleknoll");
    Ok(())
}

/// The process with the archive, and what runs it.
fn host(repository: &Path, archive: &Path, directory: &Path) -> Result<(), String> {
    let script = repository.join("rust/host/build");
    let source = repository.join("rust/host");
    println!("cargo:rerun-if-changed={}", source.display());
    println!("cargo:rerun-if-changed={}", repository.join("include").display());
    let host = directory.join("host");
    let archive = archive.canonicalize().map_err(|error| told(archive, &error))?;
    let built = Command::new("sh").arg(&script).arg(&host).arg(archive).output();
    let built = built.map_err(|error| told(&script, &error))?;
    if !built.status.success() {
        return Err(String::from_utf8_lossy(&built.stderr).into_owned());
    }
    let emulator = String::from_utf8_lossy(&built.stdout);
    println!("cargo:rustc-env=RUFFLEKNOLL_HOST={}", host.display());
    println!("cargo:rustc-env=RUFFLEKNOLL_EMULATOR={}", emulator.trim());
    Ok(())
}

fn variable(name: &str) -> Result<String, String> {
    env::var(name).map_err(|error| format!("{name}: {error}"))
}

fn told(path: &Path, error: &std::io::Error) -> String {
    format!("{}: {error}", path.display())
}
