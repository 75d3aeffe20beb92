//! Finds libhugepool: in HUGEPOOL_LIB_DIR, which has the static library; else as pkg-config says; else where the linker looks.
use std::env;
use std::process::Command;

/// What pkg-config prints, if it is there and knows the library.
fn pkg_config(word: &str) -> Option<String> {
    let program = env::var("PKG_CONFIG").unwrap_or_else(|_| "pkg-config".to_string());
    let ran = Command::new(program).args([word, "hugepool"]).output().ok()?;
    ran.status.success().then(|| String::from_utf8_lossy(&ran.stdout).into_owned())
}

fn main() {
    for name in ["HUGEPOOL_LIB_DIR", "PKG_CONFIG", "PKG_CONFIG_PATH", "PKG_CONFIG_LIBDIR", "PKG_CONFIG_SYSROOT_DIR"] {
        println!("cargo:rerun-if-env-changed={name}");
    }
    if let Ok(folder) = env::var("HUGEPOOL_LIB_DIR") {
        println!("cargo:rerun-if-changed={folder}/libhugepool.a");
        println!("cargo:rustc-link-search=native={folder}");
        println!("cargo:rustc-link-lib=static=hugepool");
        return;
    }
    let folders = pkg_config("--libs-only-L").unwrap_or_default();
    for folder in folders.split_whitespace().filter_map(|it| it.strip_prefix("-L")) {
        println!("cargo:rustc-link-search=native={folder}");
    }
    println!("cargo:rustc-link-lib=dylib=hugepool");
}
