use std::env;
use std::path::Path;

/// Tells the linker where libavarezhu.a is. A relative AVAREZHU_LIB counts from this package's folder.
fn main() {
    let package = env::var("CARGO_MANIFEST_DIR").expect("cargo sets CARGO_MANIFEST_DIR");
    let given = env::var("AVAREZHU_LIB").unwrap_or_else(|_| "../../../target/staticlib".to_string());
    let folder = Path::new(&package).join(given);
    println!("cargo:rerun-if-env-changed=AVAREZHU_LIB");
    println!("cargo:rerun-if-changed={}", folder.join("libavarezhu.a").display());
    println!("cargo:rustc-link-search=native={}", folder.display());
    println!("cargo:rustc-link-lib=static=avarezhu");
}
