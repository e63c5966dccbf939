// Links the static library where the feature asks for it. scripts/make-library makes it in target/staticlib,
// always as x86-64 code, so that no other processor's program can have it in it.
// FILTERBOX_LIB_DIR names another folder, with a library that this machine's own compiler made.

use std::env;

fn main() {
    println!("cargo:rustc-check-cfg=cfg(linked)");
    println!("cargo:rerun-if-env-changed=FILTERBOX_LIB_DIR");
    println!("cargo:rerun-if-env-changed=FILTERBOX_LINK");
    let other = env::var("FILTERBOX_LIB_DIR").ok();
    let same_code = env::var("CARGO_CFG_TARGET_ARCH").as_deref() == Ok("x86_64");
    if env::var_os("CARGO_FEATURE_LINK").is_none() || other.is_none() && !same_code {
        return;
    }
    let here = env::var("CARGO_MANIFEST_DIR").expect("cargo names the crate's folder");
    let folder = other.unwrap_or_else(|| format!("{here}/../../target/staticlib"));
    println!("cargo:rustc-cfg=linked");
    println!("cargo:rustc-link-search=native={folder}");
    // Only the damaged stand-ins of tests/standin/try-mutants are linked as dylib.
    let kind = env::var("FILTERBOX_LINK").unwrap_or_else(|_| "static".to_string());
    println!("cargo:rustc-link-lib={kind}=filterbox");
    println!("cargo:rerun-if-changed={folder}/libfilterbox.a");
}
