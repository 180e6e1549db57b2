//! Links the proved library, `libspoonharbor.a`, of this crate's own version.
//!
//! The archive stands in the folder that the environment variable `SPOONHARBOR_ARCHIVE` names. Without the variable it is
//! `../target/staticlib` on x86-64 and `../target/staticlib/PROCESSOR` on another processor, where `tools/archive` proves and
//! writes it if it is missing or older than the crates. An archive of another version is refused.

use std::env;
use std::fs;
use std::path::{Path, PathBuf};
use std::process::{self, Command};

const FOLDER_VARIABLE: &str = "SPOONHARBOR_ARCHIVE";
const ARCHIVE: &str = "libspoonharbor.a";

/// A program that prints the version of the archive that it is linked with.
const ASKING: &str = "\
extern \"C\" { fn spoonharbor_version() -> u32; }
fn main() { println!(\"{}\", unsafe { spoonharbor_version() }); }
";

fn main() {
    println!("cargo:rerun-if-env-changed={FOLDER_VARIABLE}");
    println!("cargo:rerun-if-changed=build.rs");
    let folder = match env::var_os(FOLDER_VARIABLE) {
        Some(folder) => PathBuf::from(folder),
        None => built_folder(),
    };
    let archive = folder.join(ARCHIVE);
    if !archive.is_file() {
        stop(&format!("{} is not there", archive.display()));
    }
    println!("cargo:rerun-if-changed={}", archive.display());
    check_version(&folder);
    println!(
        "cargo:rustc-env=SPOONHARBOR_ARCHIVE_FILE={}",
        archive.display()
    );
    println!("cargo:rustc-link-search=native={}", folder.display());
    println!("cargo:rustc-link-lib=static=spoonharbor");
}

/// What cargo says of itself, the crate or the target.
fn told(name: &str) -> String {
    match env::var(name) {
        Ok(value) => value,
        Err(error) => stop(&format!("{name}: {error}")),
    }
}

/// The folder in which `tools/archive` writes the archive for the target's processor; it is as new as the crates then.
fn built_folder() -> PathBuf {
    let here = PathBuf::from(told("CARGO_MANIFEST_DIR"));
    let root = here.parent().unwrap_or(&here).to_path_buf();
    let processor = told("CARGO_CFG_TARGET_ARCH");
    for part in sources(&root) {
        println!("cargo:rerun-if-changed={}", part.display());
    }
    let mut command = Command::new("sh");
    command
        .arg("tools/archive")
        .arg(&processor)
        .current_dir(&root);
    if let Err(complaint) = succeeded(&mut command) {
        stop(&complaint);
    }
    let folder = root.join("target").join("staticlib");
    match processor.as_str() {
        "x86_64" => folder,
        _ => folder.join(processor),
    }
}

/// What the archive is made of: the crates' sources, without what the toolchain keeps beside them, and the tools.
fn sources(root: &Path) -> Vec<PathBuf> {
    let mut found = vec![root.join("crates.txt"), root.join("tools")];
    for folder in fs::read_dir(root.join("crates")).into_iter().flatten() {
        let Ok(folder) = folder else { continue };
        let parts = ["src", "specs", "proofs"].map(|part| folder.path().join(part));
        found.extend(parts.into_iter().filter(|part| part.is_dir()));
    }
    found
}

/// Stops if the archive is of another version than this crate. Where the target's programs do not run here, it is not asked.
fn check_version(folder: &Path) {
    if told("HOST") != told("TARGET") {
        return;
    }
    let wanted = ["MAJOR", "MINOR", "PATCH"]
        .map(|part| told(&format!("CARGO_PKG_VERSION_{part}")))
        .join(".");
    match archive_version(folder) {
        Ok(found) if found == wanted => {}
        Ok(found) => stop(&format!(
            "{} is version {found}, and this crate needs {wanted}",
            folder.join(ARCHIVE).display()
        )),
        Err(complaint) if complaint.contains("spoonharbor_version") => stop(&format!(
            "{} tells no version, and this crate needs {wanted}",
            folder.join(ARCHIVE).display()
        )),
        Err(complaint) => println!(
            "cargo:warning=the archive's version could not be asked: {}",
            complaint.lines().next().unwrap_or_default()
        ),
    }
}

/// The version that the archive tells, as `major.minor.patch`.
fn archive_version(folder: &Path) -> Result<String, String> {
    let room = PathBuf::from(told("OUT_DIR"));
    let source = room.join("version.rs");
    let program = room.join("version");
    fs::write(&source, ASKING).map_err(|error| error.to_string())?;
    let mut compile = Command::new(told("RUSTC"));
    compile.args(["--edition=2021", "-l", "static=spoonharbor", "-L"]);
    compile.arg(format!("native={}", folder.display()));
    compile.arg("-o").arg(&program).arg(&source);
    if let Some(linker) = env::var_os("RUSTC_LINKER") {
        compile
            .arg("-C")
            .arg(format!("linker={}", Path::new(&linker).display()));
    }
    succeeded(&mut compile)?;
    let answer = succeeded(&mut Command::new(&program))?;
    match answer.trim().parse::<u32>() {
        Ok(number) => Ok([number >> 16, number >> 8 & 255, number & 255]
            .map(|part| part.to_string())
            .join(".")),
        Err(error) => Err(error.to_string()),
    }
}

/// What a command says if it succeeds, and what it says if not.
fn succeeded(command: &mut Command) -> Result<String, String> {
    let output = match command.output() {
        Ok(output) => output,
        Err(error) => return Err(format!("{command:?} cannot be run: {error}")),
    };
    let out = String::from_utf8_lossy(&output.stdout);
    match output.status.success() {
        true => Ok(out.into_owned()),
        false => Err(format!("{out}{}", String::from_utf8_lossy(&output.stderr))),
    }
}

fn stop(message: &str) -> ! {
    eprintln!("{message}");
    process::exit(1)
}
