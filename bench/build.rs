//! Links the proved static library; the script `run` says where it is.
use std::env;

fn main() {
    for name in [
        "BENCH_LIBS",
        "BENCH_BEFORE",
        "BENCH_KIT",
        "BENCH_POSTCARD",
    ] {
        println!("cargo:rerun-if-env-changed={name}");
    }
    let libs = env::var("BENCH_LIBS").expect("run this by `bench/run`");
    link(&libs, "bench_layers");
    if let Ok(before) = env::var("BENCH_BEFORE") {
        println!("cargo:rustc-cfg=before");
        link(&before, "before_bench_layers");
    }
    let kit = env::var("BENCH_KIT").expect("run this by `bench/run`");
    link(&kit, "libc_c");
    if env::var("BENCH_POSTCARD").is_ok() {
        println!("cargo:rustc-cfg=real_postcard");
    }
}

fn link(folder: &str, name: &str) {
    println!("cargo:rustc-link-search=native={folder}");
    println!("cargo:rerun-if-changed={folder}/lib{name}.a");
    println!("cargo:rustc-link-lib=static={name}");
}
