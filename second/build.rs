//! Finds `libboard.a` and says how it is reached. What `./archive` writes, target/x86-64/libboard.a, is linked. One for
//! another processor cannot be: where BOARD_EMULATOR names what runs that processor's programs, a small host in C links
//! it, which the compiler that BOARD_CC names makes, and the emulator runs that.
//!
//! BOARD_ARCHIVE names another archive.

use std::env;
use std::path::{Path, PathBuf};
use std::process::Command;

fn main() {
    println!("cargo:rustc-check-cfg=cfg(board, values(\"linked\", \"apart\", \"missing\"))");
    println!("cargo:rustc-check-cfg=cfg(openssl)");
    for variable in ["BOARD_ARCHIVE", "BOARD_CC", "BOARD_EMULATOR"] {
        println!("cargo:rerun-if-env-changed={variable}");
    }
    let here = PathBuf::from(env::var_os("CARGO_MANIFEST_DIR").unwrap());
    let root = here.parent().expect("second/ stands in the repository");
    let archive = match env::var_os("BOARD_ARCHIVE") {
        Some(path) => PathBuf::from(path),
        None => root.join("target/x86-64/libboard.a"),
    };
    println!("cargo:rerun-if-changed={}", archive.display());
    println!("cargo:rerun-if-changed=build.rs");
    if !archive.exists() {
        println!("cargo:warning=no {}: `./archive` writes it; without it nothing is compared", archive.display());
        println!("cargo:rustc-cfg=board=\"missing\"");
    } else if let Ok(emulator) = env::var("BOARD_EMULATOR") {
        host_apart(&here, root, &archive);
        println!("cargo:rustc-env=BOARD_EMULATOR={emulator}");
        println!("cargo:rustc-cfg=board=\"apart\"");
    } else {
        plain_md5(&here);
        openssl();
        println!("cargo:rustc-link-search=native={}", archive.parent().unwrap().display());
        println!("cargo:rustc-cfg=board=\"linked\"");
    }
}

/// The C that MD5 is measured against.
fn plain_md5(here: &Path) {
    let source = here.join("bench/md5.c");
    println!("cargo:rerun-if-changed={}", source.display());
    let object = PathBuf::from(env::var_os("OUT_DIR").unwrap()).join("md5.o");
    let made = Command::new("cc").args(["-O2", "-c"]).arg(&source).arg("-o").arg(&object).status().expect("cc runs");
    assert!(made.success(), "bench/md5.c does not compile");
    println!("cargo:rustc-link-arg-bin=bench={}", object.display());
}

/// OpenSSL's library beside it, where it can be linked.
fn openssl() {
    let nothing = PathBuf::from(env::var_os("OUT_DIR").unwrap()).join("nothing.so");
    let made = Command::new("cc").args(["-shared", "-lcrypto", "-o"]).arg(&nothing).output().expect("cc runs");
    if made.status.success() {
        println!("cargo:rustc-link-arg-bin=bench=-lcrypto");
        println!("cargo:rustc-cfg=openssl");
    }
}

/// The host is linked with its C library, so that the emulator needs none.
fn host_apart(here: &Path, root: &Path, archive: &Path) {
    let source = here.join("host/host.c");
    println!("cargo:rerun-if-changed={}", source.display());
    println!("cargo:rerun-if-changed={}", root.join("include/ceiling.h").display());
    let host = PathBuf::from(env::var_os("OUT_DIR").unwrap()).join("host");
    let compiler = env::var("BOARD_CC").expect("BOARD_CC names a compiler for the emulator's processor");
    let made = Command::new(&compiler)
        .args(["-std=c11", "-O2", "-Wall", "-Wextra", "-static", "-I"])
        .arg(root.join("include"))
        .arg(&source)
        .arg(archive)
        .arg("-o")
        .arg(&host)
        .status()
        .unwrap_or_else(|error| panic!("{compiler}: {error}"));
    assert!(made.success(), "host/host.c does not link with {}", archive.display());
    println!("cargo:rustc-env=BOARD_HOST={}", host.display());
}
