// Has every function bound when the program starts, so that no call counts the binding; and tells the
// program its compiler, which the figures depend on.
use std::env;
use std::process::Command;

fn main() {
    println!("cargo:rerun-if-changed=build.rs");
    println!("cargo:rustc-link-arg-bins=-Wl,-z,now");
    println!("cargo:rustc-env=COMPILER={}", compiler().unwrap_or("rustc".to_string()));
}

/// Such as `rustc 1.95.0`.
fn compiler() -> Option<String> {
    let said = Command::new(env::var_os("RUSTC")?).arg("--version").output().ok()?.stdout;
    let said = String::from_utf8(said).ok()?;
    Some(said.split_whitespace().take(2).collect::<Vec<_>>().join(" "))
}
