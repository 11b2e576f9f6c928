//! Finds the library: in the folder that QRPROVED_LIB_DIR names, or by pkg-config. If the crate has the C file of the library, as
//! `make crate` packs it, this file is compiled instead, unless the folder is named or the feature `system` is chosen.
use std::env;
use std::path::Path;
use std::process::Command;

const FOLDER: &str = "QRPROVED_LIB_DIR";
const STATIC: &str = "QRPROVED_STATIC";
const PKG_CONFIG: &str = "PKG_CONFIG";
const C_FILE: &str = "c/qrproved.c";

fn main() {
    for name in [
        FOLDER,
        STATIC,
        PKG_CONFIG,
        "PKG_CONFIG_PATH",
        "PKG_CONFIG_LIBDIR",
        "CC",
        "AR",
    ] {
        println!("cargo:rerun-if-env-changed={name}");
    }
    let wants_system = env::var(FOLDER).is_ok() || env::var("CARGO_FEATURE_SYSTEM").is_ok();
    if !wants_system && Path::new(C_FILE).exists() {
        compile();
        return;
    }
    let folder = match env::var(FOLDER) {
        Ok(folder) => folder,
        Err(_) => folder_of_pkg_config(),
    };
    let wants_static = env::var(STATIC).is_ok_and(|it| it != "0");
    let [archive, shared] =
        ["libqrproved.a", "libqrproved.so"].map(|it| Path::new(&folder).join(it));
    // So that Cargo links a library that was built anew. For a file that does not exist it would run this script at
    // every build.
    for file in [&archive, &shared].into_iter().filter(|it| it.exists()) {
        println!("cargo:rerun-if-changed={}", file.display());
    }
    // `make lib` leaves no file of the name that a linker looks for, but the archive.
    let kind = if wants_static || !shared.exists() {
        "static"
    } else {
        "dylib"
    };
    if !folder.is_empty() {
        println!("cargo:rustc-link-search=native={folder}");
    }
    println!("cargo:rustc-link-lib={kind}=qrproved");
    // So that the tests of this crate find the shared library where it was linked. Cargo passes no such argument on to the
    // crates that use this one: the README says what their own build scripts do.
    if kind == "dylib" && !folder.is_empty() {
        println!("cargo:rustc-link-arg=-Wl,-rpath,{folder}");
    }
    println!("cargo:root={folder}");
}

/// Compiles the C file by the tools that CC and AR name, or by cc and ar, and lets Cargo link it.
fn compile() {
    let folder = env::var("OUT_DIR").expect("Cargo sets it");
    let [object, archive] = ["qrproved.o", "libqrproved.a"].map(|it| format!("{folder}/{it}"));
    let tool = |name: &str, usual: &str| env::var(name).unwrap_or_else(|_| usual.to_string());
    run(
        &tool("CC", "cc"),
        &["-std=c99", "-O2", "-fPIC", "-c", C_FILE, "-o", &object],
    );
    run(&tool("AR", "ar"), &["rcs", &archive, &object]);
    println!("cargo:rerun-if-changed=c");
    println!("cargo:rustc-link-search=native={folder}");
    println!("cargo:rustc-link-lib=static=qrproved");
}

/// Runs a tool. Ends the build if it fails.
fn run(tool: &str, words: &[&str]) {
    let done = Command::new(tool).args(words).status();
    if !done.is_ok_and(|it| it.success()) {
        eprintln!("qrproved: {tool} cannot be run, or fails: {words:?}");
        std::process::exit(1)
    }
}

/// Returns the folder of the installed library. Ends the build if there is none of this version: structs and calls may change with
/// each.
fn folder_of_pkg_config() -> String {
    let command = env::var(PKG_CONFIG).unwrap_or_else(|_| "pkg-config".to_string());
    let wanted = concat!("qrproved = ", env!("CARGO_PKG_VERSION"));
    let said = Command::new(&command)
        .args(["--print-errors", "--variable=libdir", wanted])
        .output();
    match said {
        Ok(it) if it.status.success() => String::from_utf8_lossy(&it.stdout).trim().to_string(),
        Ok(it) => stop(&String::from_utf8_lossy(&it.stderr)),
        Err(fault) => stop(&format!("{command} cannot be run: {fault}")),
    }
}

fn stop(why: &str) -> ! {
    eprintln!("qrproved: the library is not found: {}\nInstall it, or set {FOLDER} to the folder of libqrproved.a, and {STATIC}=1 to link this archive even if a shared library is beside it.", why.trim());
    std::process::exit(1)
}
