// Links libnamedict.a from the folder NAMEDICT_LIB_DIR, or from the repository's target/staticlib.
use std::env;
use std::path::PathBuf;

fn main() {
    let folder = match env::var_os("NAMEDICT_LIB_DIR") {
        Some(folder) => PathBuf::from(folder),
        None => {
            PathBuf::from(env::var_os("CARGO_MANIFEST_DIR").unwrap()).join("../../target/staticlib")
        }
    };
    println!("cargo:rerun-if-env-changed=NAMEDICT_LIB_DIR");
    println!(
        "cargo:rerun-if-changed={}",
        folder.join("libnamedict.a").display()
    );
    println!("cargo:rustc-link-search=native={}", folder.display());
    println!("cargo:rustc-link-lib=static=namedict");
}
