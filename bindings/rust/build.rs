//! Builds the library by a C compiler, as `bindings/build` does, of the assembly that the proofs gave: of the repository, or of
//! `native/` in a packaged crate (`bindings/carry` makes it). The crate `cc` is not taken: a build without a network, as that of the
//! tests, has no other crate. Where CUKVASHE_DES_LIB_DIR names a folder, the library there is linked instead, the static one if it has
//! both. One of another version is refused, and so is one that says none: its contexts could need more memory than this crate gives
//! them.

use std::env;
use std::fs;
use std::path::{Path, PathBuf};
use std::process::{exit, Command};

const VERSION: &str = env!("CARGO_PKG_VERSION");

/// What stands before the version in the header.
const NAMED: &str = "#define CUKVASHE_VERSION ";

/// Says why the crate can't be built, and ends.
fn refused(text: &str) -> ! {
    eprintln!("{text}");
    exit(1);
}

/// What cargo says by a variable, or nothing.
fn said(variable: &str) -> String {
    env::var(variable).unwrap_or_default()
}

/// The words of a tool: those of its variable, by the names that the crate `cc` has for it. Cargo asks again when one of them changes.
fn tool(variable: &str) -> Option<String> {
    let (target, side) = (said("TARGET"), if said("TARGET") == said("HOST") { "HOST" } else { "TARGET" });
    let plain = target.replace('-', "_");
    let names = [
        format!("{variable}_{target}"),
        format!("{variable}_{plain}"),
        format!("{side}_{variable}"),
        variable.to_string(),
    ];
    for name in &names {
        println!("cargo:rerun-if-env-changed={name}");
    }
    names.iter().map(|name| said(name)).find(|words| !words.trim().is_empty())
}

/// The version that a file says behind a text, if the file is there.
fn version_in(file: &Path, before: &str) -> Option<String> {
    let text = fs::read_to_string(file).ok()?;
    let version = text.lines().find_map(|line| line.strip_prefix(before)).unwrap_or_default();
    Some(version.trim().trim_matches('"').to_string())
}

/// What `bindings/build` calls cargo's target, if it has it.
fn known() -> Option<String> {
    let of = |what: &str| said(&format!("CARGO_CFG_TARGET_{what}"));
    if of("POINTER_WIDTH") != "64" || of("ENDIAN") != "little" {
        return None;
    }
    match (&*of("OS"), &*of("ENV"), &*of("ARCH")) {
        ("linux", "gnu" | "musl", processor @ ("x86_64" | "aarch64" | "riscv64")) => Some(processor.to_string()),
        ("windows", "gnu", "x86_64") => Some("windows".to_string()),
        ("macos", _, "x86_64" | "aarch64") => Some("macos".to_string()),
        _ => None,
    }
}

/// Builds the library, and links it.
fn build() {
    let (target, host, processor) = (said("TARGET"), said("HOST"), said("CARGO_CFG_TARGET_ARCH"));
    let Some(known) = known() else {
        refused(&format!(
            "{target} is not supported: take Linux on x86_64, aarch64 or riscv64 (gnu, musl), x86_64-pc-windows-gnu, or macOS"
        ));
    };
    let own = PathBuf::from(said("CARGO_MANIFEST_DIR"));
    let repository = own.join("../..");
    let top = if repository.join("bindings/c/cukvashe_des.h").exists() { repository } else { own.join("native") };
    for watched in ["VERSION", "bindings/build", "bindings/targets", "bindings/c", "generated"] {
        println!("cargo:rerun-if-changed={}", top.join(watched).display());
    }
    let version = version_in(&top.join("bindings/c/cukvashe_des.h"), NAMED).unwrap_or_default();
    if version != VERSION {
        refused(&format!(
            "cukvashe_des.h has version {version}, and this crate version {VERSION}: take both from one commit"
        ));
    }
    let out = PathBuf::from(said("OUT_DIR")).join("built");
    let mut command = Command::new("bash");
    command
        .arg(top.join("bindings/build"))
        .args(["--generated", "--target", &known, "--into"])
        .arg(out.to_string_lossy().replace('\\', "/"));
    let is_own = host.starts_with(&processor) && host.contains(&said("CARGO_CFG_TARGET_OS"));
    let usual = if known == "windows" { "gcc" } else { "cc" };
    if let Some(mut cc) = tool("CC").or_else(|| (is_own || known == "macos").then(|| usual.to_string())) {
        if known == "macos" {
            // One compiler makes code for both of Apple's processors.
            cc += &format!(" --target={}-apple-macosx11", processor.replace("aarch64", "arm64"));
        }
        command.env("CC", cc);
    }
    if let Some(ar) = tool("AR") {
        command.env("AR", ar);
    }
    match command.output() {
        Ok(output) if output.status.success() => link(&out.join("lib"), "static"),
        Ok(output) => refused(&String::from_utf8_lossy(&output.stderr)),
        Err(error) => refused(&format!("bash can't be run ({error}), which bindings/build needs")),
    }
}

/// Whether this crate works over a library of a version: its own, or a later one with the same first two numbers.
fn fits(version: &str) -> bool {
    let numbers = |version: &str| version.split('.').map(str::parse).collect::<Result<Vec<u32>, _>>().ok();
    let (Some(own), Some(other)) = (numbers(VERSION), numbers(version)) else { return false };
    other.len() == 3 && own[..2] == other[..2] && own[2] <= other[2]
}

/// Links the library of a folder, by the files beside it that say its version.
fn take(folder: &Path) {
    if folder.is_relative() {
        refused("CUKVASHE_DES_LIB_DIR needs a path that begins with /: the crate is built in a folder of its own");
    }
    let files =
        [(folder.join("pkgconfig/cukvashe_des.pc"), "Version:"), (folder.join("../include/cukvashe_des.h"), NAMED)];
    let versions: Vec<String> = files.iter().filter_map(|(file, before)| version_in(file, before)).collect();
    if let Some(other) = versions.iter().find(|version| !fits(version)) {
        refused(&format!("the library of {} has version {other}, and this crate version {VERSION}", folder.display()));
    }
    if versions.is_empty() {
        let [first, second] = files.map(|(file, _)| file.display().to_string());
        refused(&format!("the library of {} says no version: {first} and {second} are missing", folder.display()));
    }
    let library = folder.join("libcukvashe_des.a");
    for file in files.iter().map(|(file, _)| file).chain([&library]).filter(|file| file.exists()) {
        println!("cargo:rerun-if-changed={}", file.display());
    }
    link(folder, if library.exists() { "static" } else { "dylib" });
}

/// Tells cargo to link the library of a folder.
fn link(folder: &Path, kind: &str) {
    println!("cargo:rustc-link-search=native={}", folder.display());
    println!("cargo:rustc-link-lib={kind}=cukvashe_des");
}

fn main() {
    for name in ["CUKVASHE_DES_LIB_DIR", "DOCS_RS"] {
        println!("cargo:rerun-if-env-changed={name}");
    }
    // Nothing is linked for documents.
    if env::var_os("DOCS_RS").is_some() {
        return;
    }
    match env::var_os("CUKVASHE_DES_LIB_DIR") {
        Some(folder) => take(Path::new(&folder)),
        None => build(),
    }
}
