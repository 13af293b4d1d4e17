//! Compiles the kernels for this machine, and lays the program out as BENCHMARK_LAYOUT says: see src/layout.rs.

use std::env;
use std::path::Path;
use std::process::Command;

fn main() {
    layout();
    if env::var_os("CARGO_FEATURE_NATIVE").is_some() {
        native();
    }
}

/// Four layouts: the functions as they come, and three times sorted by name, where the padding is in front of them all. Its lengths differ
/// also in what is left when they are divided by 64, the length of a line of the cache.
fn layout() {
    println!("cargo:rerun-if-env-changed=BENCHMARK_LAYOUT");
    let layout = env::var("BENCHMARK_LAYOUT").unwrap_or_else(|_| "1".into());
    let (padding, sorted) = match layout.as_str() {
        "1" => (4, false),
        "2" => (16, true),
        "3" => (1056, true),
        "4" => (2100, true),
        other => panic!("BENCHMARK_LAYOUT is 1, 2, 3 or 4, not {}", other),
    };
    println!("cargo:rustc-env=BENCHMARK_LAYOUT={}", layout);
    let out = env::var("OUT_DIR").expect("OUT_DIR is set by cargo");
    let text = format!("pub const PADDING: usize = {};\npub const SORTED: bool = {};\n", padding, sorted);
    std::fs::write(Path::new(&out).join("made.rs"), text).expect("OUT_DIR can be written");
    if sorted {
        println!("cargo:rustc-link-arg-bins=-Wl,--sort-section=name");
    }
}

/// Each kernel by the same compiler options; `kernel` gets the kernel's own name, as kernel_sort.
fn native() {
    println!("cargo:rerun-if-env-changed=BENCHMARK_CC");
    println!("cargo:rerun-if-changed=kernels");
    let compiler = env::var("BENCHMARK_CC").unwrap_or_else(|_| "cc".into());
    let out = env::var("OUT_DIR").expect("OUT_DIR is set by cargo");
    for name in ["arithmetic", "hash", "sort", "tariff", "fares"] {
        let object = format!("{}/{}.o", out, name);
        let done = Command::new(&compiler)
            .args(["-std=c11", "-O2", "-fPIC", "-Wall", "-Wextra", "-Werror", "-c"])
            .arg(format!("-Dkernel=kernel_{}", name))
            .args(["-o", object.as_str()])
            .arg(format!("kernels/{}.c", name))
            .status();
        match done {
            Ok(status) if status.success() => println!("cargo:rustc-link-arg-bins={}", object),
            _ => panic!("{} could not compile kernels/{}.c", compiler, name),
        }
    }
}
