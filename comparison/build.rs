//! Links the archive of the proved library, what its header says and, where it is installed, igraph.

use std::env;
use std::path::PathBuf;
use std::process::Command;

fn main() {
    let here = PathBuf::from(env::var("CARGO_MANIFEST_DIR").expect("cargo sets it"));
    // comparison/before links another archive
    println!("cargo:rerun-if-env-changed=ARCHIVE_FOLDER");
    let folder = env::var("ARCHIVE_FOLDER").map_or(here.join("../target/staticlib"), PathBuf::from);
    println!(
        "cargo:rerun-if-changed={}",
        folder.join("libpuxerdau.a").display()
    );
    println!("cargo:rustc-link-search=native={}", folder.display());
    println!("cargo:rustc-link-lib=static=puxerdau");
    println!("cargo:rerun-if-changed=../include/puxerdau.h");
    println!("cargo:rerun-if-changed=header.c");
    let flags = ["-std=c11", "-Wall", "-Wextra", "-Werror", "-I../include"];
    assert!(
        compile("header.c", "header", &flags),
        "header.c does not compile"
    );
    println!("cargo:rustc-check-cfg=cfg(igraph)");
    println!("cargo:rerun-if-changed=igraph.c");
    link_igraph();
}

/// Compiles igraph.c if `pkg-config` knows igraph; else the benchmark goes without.
fn link_igraph() {
    let Some(flags) = output("pkg-config", &["--cflags", "igraph"]) else {
        return;
    };
    let Some(libraries) = output("pkg-config", &["--libs", "igraph"]) else {
        return;
    };
    let flags: Vec<&str> = flags.split_whitespace().collect();
    if !compile("igraph.c", "exact", &flags) {
        return;
    }
    for word in libraries.split_whitespace() {
        if let Some(name) = word.strip_prefix("-l") {
            println!("cargo:rustc-link-lib={name}");
        } else if let Some(path) = word.strip_prefix("-L") {
            println!("cargo:rustc-link-search=native={path}");
        }
    }
    println!("cargo:rustc-cfg=igraph");
}

/// Compiles a C file of this folder and links it as a library of the given name, unless that fails.
fn compile(source: &str, library: &str, flags: &[&str]) -> bool {
    let out = PathBuf::from(env::var("OUT_DIR").expect("cargo sets it"));
    let object = out.join(format!("{library}.o"));
    let done = succeeds(
        Command::new("cc")
            .args(["-O2", "-c", source, "-o"])
            .arg(&object)
            .args(flags),
    ) && succeeds(
        Command::new("ar")
            .arg("rcs")
            .arg(out.join(format!("lib{library}.a")))
            .arg(&object),
    );
    if done {
        println!("cargo:rustc-link-search=native={}", out.display());
        println!("cargo:rustc-link-lib=static={library}");
    }
    done
}

fn succeeds(command: &mut Command) -> bool {
    command.status().is_ok_and(|status| status.success())
}

fn output(program: &str, arguments: &[&str]) -> Option<String> {
    let output = Command::new(program).args(arguments).output().ok()?;
    output
        .status
        .success()
        .then(|| String::from_utf8_lossy(&output.stdout).into_owned())
}
