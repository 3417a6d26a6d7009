//! Compiles the Rust's sources, unchanged and in place, and links the archives of the drivers. The script `run` sets both folders.

use std::env;
use std::path::{Path, PathBuf};
use std::process::Command;

/// The crates of drivers. Each is an archive of its own: what is compiled together decides what is inlined.
const DRIVERS: [&str; 4] = ["bench_steps", "bench_twice", "bench_turns", "bench_fields"];
const STAND_IN: &str = "../oracle/tracing/lib.rs";

fn main() {
    let src = env::var("JXL_BITSTREAM_SRC").expect("JXL_BITSTREAM_SRC is set");
    let libs = env::var("BENCH_LIBS").expect("BENCH_LIBS is set");
    let out = PathBuf::from(env::var_os("OUT_DIR").expect("cargo sets OUT_DIR"));
    let stand_in = compile("tracing", Path::new(STAND_IN), &out, None);
    let folder = Path::new(&src).join("src");
    compile(
        "jxl_bitstream",
        &folder.join("lib.rs"),
        &out,
        Some(&stand_in),
    );

    println!("cargo:rustc-link-search=all={}", out.display());
    println!("cargo:rustc-link-search=native={libs}");
    for name in DRIVERS {
        println!("cargo:rustc-link-lib=static={name}");
        println!("cargo:rerun-if-changed={libs}/lib{name}.a");
    }
    for variable in ["JXL_BITSTREAM_SRC", "BENCH_LIBS"] {
        println!("cargo:rerun-if-env-changed={variable}");
    }
    for file in ["build.rs", STAND_IN, &folder.display().to_string()] {
        println!("cargo:rerun-if-changed={file}");
    }
}

/// Compiles one crate to an rlib in `out`, as quick as it gets, and tells where the rlib is.
fn compile(name: &str, root: &Path, out: &Path, tracing: Option<&Path>) -> PathBuf {
    let rlib = out.join(format!("lib{name}.rlib"));
    let mut rustc = Command::new(env::var_os("RUSTC").expect("cargo sets RUSTC"));
    rustc.args(["--crate-type", "rlib", "--edition", "2024"]);
    rustc.args(["--cap-lints", "allow", "--crate-name", name]);
    rustc.args(["-C", "debug-assertions=off", "-C", "opt-level=3"]);
    rustc
        .args(["-C", "codegen-units=1", "-o"])
        .arg(&rlib)
        .arg(root);
    if let Some(path) = tracing {
        rustc
            .arg("--extern")
            .arg(format!("tracing={}", path.display()));
    }
    assert!(rustc.status().expect("rustc starts").success());
    rlib
}
