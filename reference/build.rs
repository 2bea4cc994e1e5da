//! Under the feature `linked`: compiles plain/comet.c, links the proved library's archive of this processor (`cfg(native)`),
//! and links bridge/bridge.c with the archive for x86-64 (`cfg(bridged)`). A missing archive is skipped; if both are missing,
//! the build fails. Without the feature the script does nothing, and needs neither a C compiler nor an archive.

use std::env;
use std::path::{Path, PathBuf};
use std::process::{exit, Command};

/// The C compiler for x86-64 on another processor.
const CROSS_COMPILER: &str = "x86_64-linux-gnu-gcc";

const ARCHIVE: &str = "libsnoekeldraf.a";

/// Prints a message and fails the build.
fn stop(sentence: String) -> ! {
    eprintln!("{sentence}");
    exit(1)
}

fn run(command: &mut Command) {
    let status = command.status().unwrap_or_else(|e| stop(format!("{command:?}: {e}")));
    if !status.success() {
        stop(format!("{command:?}: {status}"));
    }
}

fn native_compiler() -> String {
    env::var("CC").unwrap_or("cc".to_string())
}

/// Builds and links the archive of plain/comet.c, at -O3. Its functions are aligned, so that the speed of a short loop does
/// not depend on what the linker places before it.
fn compile_plain(here: &Path, to: &Path) {
    let (object, archive) = (to.join("comet.o"), to.join("libplain.a"));
    let flags = ["-O3", "-falign-functions=64", "-c"];
    run(Command::new(native_compiler()).args(flags).arg(here.join("plain/comet.c")).arg("-o").arg(&object));
    run(Command::new("ar").arg("crs").arg(&archive).arg(&object));
    println!("cargo:rustc-link-search=native={}", to.display());
    println!("cargo:rustc-link-lib=static=plain");
}

/// The first of these archives that is there.
fn that_is_there(archives: Vec<PathBuf>) -> Option<PathBuf> {
    for archive in &archives {
        println!("cargo:rerun-if-changed={}", archive.display());
    }
    archives.into_iter().find(|archive| archive.exists())
}

/// The archives for x86-64 that `./run library x86-64`, and `rt lib` in crates/snoekeldraf_c, write.
fn archives_of_x86(here: &Path) -> Vec<PathBuf> {
    let of_rt = here.join("../crates/snoekeldraf_c/out/libsnoekeldraf_c.a");
    vec![here.join("../target/x86-64").join(ARCHIVE), of_rt]
}

/// Links the archive of this processor; false if there is none. SNOEKELDRAF_DIR overrides the folder of `./run library`.
fn link_native(here: &Path, is_x86: bool) -> bool {
    let named = env::var("SNOEKELDRAF_DIR").map(|folder| vec![Path::new(&folder).join(ARCHIVE)]);
    let arch = env::var("CARGO_CFG_TARGET_ARCH").unwrap();
    let usual = if is_x86 { archives_of_x86(here) } else { vec![here.join("../target").join(arch).join(ARCHIVE)] };
    let Some(archive) = that_is_there(named.unwrap_or(usual)) else { return false };
    let name = archive.file_stem().unwrap().to_str().unwrap();
    println!("cargo:rustc-link-search=native={}", archive.parent().unwrap().display());
    println!("cargo:rustc-link-lib=static={}", name.strip_prefix("lib").unwrap());
    println!("cargo:rustc-cfg=native");
    true
}

/// Builds the C program that calls the archive for x86-64; false if the archive, or a compiler for x86-64, is missing.
fn compile_bridge(here: &Path, to: &Path, is_x86: bool) -> bool {
    let Some(archive) = that_is_there(archives_of_x86(here)) else { return false };
    let compiler = if is_x86 { native_compiler() } else { CROSS_COMPILER.to_string() };
    if Command::new(&compiler).arg("--version").output().is_err() {
        println!("cargo:warning={compiler} is not there: the archive for x86-64 is not compared");
        return false;
    }
    let program = to.join("bridge");
    let mut command = Command::new(compiler);
    command.args(["-O2", "-Wall", "-Wextra", "-Werror", "-I"]).arg(here.join("../include"));
    if !is_x86 {
        // so that the emulator needs no libraries for x86-64
        command.arg("-static");
    }
    run(command.arg(here.join("bridge/bridge.c")).arg(archive).arg("-o").arg(&program));
    println!("cargo:rustc-env=BRIDGE={}", program.display());
    println!("cargo:rustc-cfg=bridged");
    true
}

fn main() {
    for name in ["native", "bridged"] {
        println!("cargo:rustc-check-cfg=cfg({name})");
    }
    for path in ["build.rs", "plain", "bridge", "../include"] {
        println!("cargo:rerun-if-changed={path}");
    }
    println!("cargo:rerun-if-env-changed=CC");
    println!("cargo:rerun-if-env-changed=SNOEKELDRAF_DIR");
    if env::var("CARGO_FEATURE_LINKED").is_err() {
        return;
    }
    let here = PathBuf::from(env::var("CARGO_MANIFEST_DIR").unwrap());
    let to = PathBuf::from(env::var("OUT_DIR").unwrap());
    let is_x86 = env::var("CARGO_CFG_TARGET_ARCH").unwrap() == "x86_64";
    let [linked, bridged] = [link_native(&here, is_x86), compile_bridge(&here, &to, is_x86)];
    if !linked && !bridged {
        stop("no archive of the proved library is there: run `./run library` with this processor's name first".into());
    }
    compile_plain(&here, &to);
}
