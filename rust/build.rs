//! Links the library's archive, `libkiln.a`: the one in the folder that `KILN_LIB_DIR` names, else the one that
//! `tools/archive.sh` writes to `target/staticlib` beside this crate's folder.
use std::env;
use std::path::Path;

fn main() {
    let manifest = env::var("CARGO_MANIFEST_DIR").expect("cargo sets CARGO_MANIFEST_DIR");
    let named = match env::var("KILN_LIB_DIR") {
        Ok(folder) if !folder.is_empty() => Some(folder),
        Err(env::VarError::NotUnicode(_)) => panic!("KILN_LIB_DIR is not UTF-8"),
        _ => None,
    };
    // A folder that is not a full path counts from this crate's.
    let folder = Path::new(&manifest).join(named.as_deref().unwrap_or("../target/staticlib"));
    let archive = folder.join("libkiln.a");
    println!("cargo:rerun-if-env-changed=KILN_LIB_DIR");
    println!("cargo:rerun-if-changed={}", archive.display());
    println!("cargo:rustc-link-search=native={}", folder.display());
    println!("cargo:rustc-link-lib=static=kiln");
    // Documentation and checks do without the archive; where it is linked, its absence is rustc's error after this.
    if !archive.is_file() {
        let cure = "run `tools/archive.sh`, or name its folder in KILN_LIB_DIR";
        println!("cargo:warning={} is not there and nothing can be linked: {cure}", archive.display());
    }
}
