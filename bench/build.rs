// Links the library: the file that the variable GOMZIETIS_LIB names, as `libclib.a`.

use std::{env, path::PathBuf};

fn main() {
    println!("cargo:rerun-if-changed=build.rs");
    println!("cargo:rerun-if-env-changed=GOMZIETIS_LIB");
    // the tests need no library
    let Some(library) = env::var_os("GOMZIETIS_LIB").map(PathBuf::from) else {
        println!("cargo:warning=GOMZIETIS_LIB names no library: bench/run sets it");
        return;
    };
    let file = library.file_name().and_then(|file| file.to_str());
    let name = file.and_then(|file| file.strip_prefix("lib")?.strip_suffix(".a"));
    let (Some(name), Some(folder)) = (name, library.parent()) else {
        panic!("{} is no static library", library.display());
    };
    println!("cargo:rerun-if-changed={}", library.display());
    println!("cargo:rustc-link-search=native={}", folder.display());
    println!("cargo:rustc-link-lib=static={name}");
}
