//! Finds the C library: in the folder named by GOGBETIKU_LIB, or where the linker looks. With GOGBETIKU_STATIC it links
//! libgogbetiku.a, so that no library needs to be installed.

fn main() {
    println!("cargo:rerun-if-env-changed=GOGBETIKU_LIB");
    println!("cargo:rerun-if-env-changed=GOGBETIKU_STATIC");
    if let Ok(folder) = std::env::var("GOGBETIKU_LIB") {
        println!("cargo:rustc-link-search=native={folder}");
    }
    let kind = if std::env::var_os("GOGBETIKU_STATIC").is_some() { "static" } else { "dylib" };
    println!("cargo:rustc-link-lib={kind}=gogbetiku");
}
