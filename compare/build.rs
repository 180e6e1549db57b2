//! What the comparison builds besides Rust, each only where it can be had:
//!
//! - `re2c/scan.re`, a scanner that writes the same rows (`cfg(re2c)`), where re2c and a C compiler are there;
//! - the archive that `SPOONHARBOR_BEFORE` names, its calls under names of their own (`cfg(before)`), so that the library before and after a
//!   change are measured in one run.

use std::env;
use std::path::{Path, PathBuf};
use std::process::Command;

const BEFORE: &str = "SPOONHARBOR_BEFORE";
const CALLS: [&str; 9] = [
    "scan",
    "well_formed",
    "spelling",
    "parse",
    "change",
    "edit",
    "restart",
    "store",
    "load",
];
/// What no side asks of the older archive: its own names for these stay its own.
const UNASKED: [&str; 8] = [
    "allows",
    "set_size",
    "section_kind",
    "version",
    "load_beside",
    "move",
    "mend",
    "layout",
];

fn main() {
    println!("cargo:rustc-check-cfg=cfg(re2c)");
    println!("cargo:rustc-check-cfg=cfg(before)");
    println!("cargo:rerun-if-changed=re2c/scan.re");
    println!("cargo:rerun-if-changed=build.rs");
    println!("cargo:rerun-if-env-changed={BEFORE}");
    let out = PathBuf::from(env::var_os("OUT_DIR").expect("cargo says where to build"));
    if scanner(&out) {
        println!("cargo:rustc-cfg=re2c");
        println!("cargo:rustc-link-lib=static=re2cscan");
        println!("cargo:rustc-link-search=native={}", out.display());
    }
    if let Some(archive) = env::var_os(BEFORE) {
        println!("cargo:rerun-if-changed={}", Path::new(&archive).display());
        assert!(
            renamed(Path::new(&archive), &out.join("libbefore.a")),
            "{BEFORE} names no archive that objcopy takes: {}",
            Path::new(&archive).display()
        );
        println!("cargo:rustc-cfg=before");
        println!("cargo:rustc-link-lib=static=before");
        println!("cargo:rustc-link-search=native={}", out.display());
    }
}

/// Whether the re2c scanner was built.
fn scanner(out: &Path) -> bool {
    let (c, object) = (out.join("scan.c"), out.join("scan.o"));
    let archive = out.join("libre2cscan.a");
    let _ = std::fs::remove_file(&archive);
    ran(Command::new("re2c")
        .args(["-W", "--no-debug-info", "-o"])
        .arg(&c)
        .arg("re2c/scan.re"))
        && ran(Command::new("cc")
            .args(["-O3", "-c", "-o"])
            .arg(&object)
            .arg(&c))
        && ran(Command::new("ar").arg("crs").arg(&archive).arg(&object))
}

/// Whether the archive was copied with other names for its calls.
fn renamed(archive: &Path, copy: &Path) -> bool {
    let mut command = Command::new("objcopy");
    for call in CALLS {
        command.arg(format!("--redefine-sym=spoonharbor_{call}=before_{call}"));
    }
    for call in UNASKED {
        command.arg(format!("--localize-symbol=spoonharbor_{call}"));
    }
    ran(command.arg(archive).arg(copy))
}

fn ran(command: &mut Command) -> bool {
    command.status().is_ok_and(|status| status.success())
}
