//! Links the archive of the proved library for the target, and says how to make it where it is missing.
//!
//! The archive is `libsnoekeldraf.a` in the folder that SNOEKELDRAF_DIR names; else in `target/NAME/` of a folder above this
//! package, where `./run library NAME` writes it, or in `lib/snoekeldraf/NAME/`, as in a release; else, where the target is this
//! machine, in a folder that linkers look into.

use std::env;
use std::path::{Path, PathBuf};
use std::process::exit;

const ARCHIVE: &str = "libsnoekeldraf.a";

/// A target of `./run library`: its name there, and how Cargo describes it. A triple's start distinguishes what architecture,
/// system and pointer width do not.
struct Target {
    name: &'static str,
    arch: &'static str,
    os: &'static str,
    pointer_width: &'static str,
    triple: &'static str,
}

#[rustfmt::skip]
const TARGETS: [Target; 7] = [
    Target { name: "x86-64", arch: "x86_64", os: "linux", pointer_width: "64", triple: "x86_64-" },
    Target { name: "aarch64", arch: "aarch64", os: "linux", pointer_width: "64", triple: "aarch64-" },
    Target { name: "cortex-m0plus", arch: "arm", os: "none", pointer_width: "32", triple: "thumbv6m-" },
    Target { name: "cortex-m4", arch: "arm", os: "none", pointer_width: "32", triple: "thumbv7em-none-eabi" },
    Target { name: "cortex-m33", arch: "arm", os: "none", pointer_width: "32", triple: "thumbv8m.main-none-eabi" },
    Target { name: "riscv32", arch: "riscv32", os: "none", pointer_width: "32", triple: "riscv32imac-" },
    Target { name: "wasm32", arch: "wasm32", os: "unknown", pointer_width: "32", triple: "wasm32-" },
];

/// Ends the build with one sentence.
fn stop(sentence: String) -> ! {
    eprintln!("{sentence}");
    exit(1)
}

/// A variable that Cargo sets for every build script.
fn of_cargo(name: &str) -> String {
    env::var(name).unwrap_or_else(|_| stop(format!("Cargo did not set {name}")))
}

/// The target that is built for. An archive is made for one architecture, system and pointer width.
fn target() -> &'static Target {
    let triple = of_cargo("TARGET");
    let [arch, os, width] = ["ARCH", "OS", "POINTER_WIDTH"].map(|what| of_cargo(&format!("CARGO_CFG_TARGET_{what}")));
    let fits = |target: &&Target| {
        let described = (target.arch, target.os, target.pointer_width) == (&arch[..], &os[..], &width[..]);
        // the archives for Arm pass no floating-point registers
        described && triple.starts_with(target.triple) && !triple.ends_with("eabihf")
    };
    TARGETS.iter().find(fits).unwrap_or_else(|| {
        let names = TARGETS.map(|target| target.name).join(", ");
        stop(format!("there is no archive of the proved library for {triple}; there is one for: {names}"))
    })
}

/// The folders in which the archive may lie, the likeliest first.
fn folders(here: &Path, target: &Target) -> Vec<PathBuf> {
    let above = here.ancestors().skip(1);
    let built =
        above.flat_map(|above| ["target", "lib/snoekeldraf"].map(|folder| above.join(folder).join(target.name)));
    let mut folders: Vec<PathBuf> = built.collect();
    if of_cargo("HOST") == of_cargo("TARGET") {
        let multiarch = format!("/usr/lib/{}-linux-gnu", target.arch);
        folders.extend(["/usr/local/lib", &multiarch, "/usr/lib"].map(PathBuf::from));
    }
    folders
}

fn main() {
    println!("cargo:rerun-if-changed=build.rs");
    println!("cargo:rerun-if-env-changed=SNOEKELDRAF_DIR");
    let target = target();
    let here = PathBuf::from(of_cargo("CARGO_MANIFEST_DIR"));
    let named = env::var_os("SNOEKELDRAF_DIR").map(PathBuf::from);
    let folders = named.clone().map_or_else(|| folders(&here, target), |folder| vec![folder]);
    let Some(folder) = folders.iter().find(|folder| folder.join(ARCHIVE).exists()) else {
        let place = named.map_or("there".to_owned(), |folder| format!("in {}", folder.display()));
        stop(format!(
            "the archive of the proved library for {name} is not {place}: run `./run library {name}` at the root of the \
             repository, which writes target/{name}/{ARCHIVE}, or name the archive's folder by SNOEKELDRAF_DIR",
            name = target.name
        ))
    };
    println!("cargo:rerun-if-changed={}", folder.join(ARCHIVE).display());
    println!("cargo:rustc-link-search=native={}", folder.display());
    println!("cargo:rustc-link-lib=static=snoekeldraf");
}
