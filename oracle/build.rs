//! Compiles the Rust's sources, unchanged and in place, so that `extern crate jxl_bitstream` finds them.

use std::env;
use std::path::{Path, PathBuf};
use std::process::Command;

fn main() {
    // The folder has to be named: there is no place where the sources would stand by themselves.
    let src = env::var("JXL_BITSTREAM_SRC").unwrap_or_default();
    let root = Path::new(&src).join("src").join("lib.rs");
    if !root.is_file() {
        eprintln!(
            "error: the Rust sources of jxl-bitstream are not at {}",
            root.display()
        );
        eprintln!("set JXL_BITSTREAM_SRC to the folder that holds src/lib.rs");
        eprintln!("(a relative path is taken from the folder of this build.rs)");
        std::process::exit(1);
    }
    let out = PathBuf::from(env::var_os("OUT_DIR").expect("cargo sets OUT_DIR"));
    let stand_in = compile("tracing", Path::new("tracing/lib.rs"), &out, None);
    compile("jxl_bitstream", &root, &out, Some(&stand_in));

    println!("cargo:rustc-link-search=all={}", out.display());
    println!("cargo:rerun-if-env-changed=JXL_BITSTREAM_SRC");
    println!("cargo:rerun-if-changed=build.rs");
    println!("cargo:rerun-if-changed=tracing/lib.rs");
    println!(
        "cargo:rerun-if-changed={}",
        Path::new(&src).join("src").display()
    );
}

/// Compiles one crate to an rlib in `out` and tells where the rlib is.
fn compile(name: &str, root: &Path, out: &Path, tracing: Option<&Path>) -> PathBuf {
    let rlib = out.join(format!("lib{name}.rlib"));
    let mut rustc = Command::new(env::var_os("RUSTC").expect("cargo sets RUSTC"));
    rustc.args([
        "--crate-type",
        "rlib",
        "--edition",
        "2024",
        "--cap-lints",
        "allow",
    ]);
    rustc.args(["--crate-name", name, "-C", checks()]);
    rustc.args(["-C", "opt-level=3", "-o"]).arg(&rlib).arg(root);
    if let Some(path) = tracing {
        rustc
            .arg("--extern")
            .arg(format!("tracing={}", path.display()));
    }
    let status = rustc.status().expect("rustc starts");
    if !status.success() {
        eprintln!("error: rustc could not compile {}", root.display());
        std::process::exit(1);
    }
    rlib
}

/// A debug build keeps the Rust's own debug_assert and overflow checks, a release build has none.
fn checks() -> &'static str {
    match env::var("PROFILE").as_deref() {
        Ok("release") => "debug-assertions=off",
        _ => "debug-assertions=on",
    }
}
