//! Links libcolregs.a, from the folder that COLREGS_LIB names, or from where pkg-config finds it.

use std::env;
use std::process::Command;

fn main() {
    println!("cargo:rerun-if-env-changed=COLREGS_LIB");
    let folder = env::var("COLREGS_LIB").unwrap_or_else(|_| {
        let found = Command::new("pkg-config")
            .args(["--variable=libdir", "colregs"])
            .output()
            .expect("pkg-config did not run; set COLREGS_LIB to the folder of libcolregs.a");
        assert!(
            found.status.success(),
            "pkg-config knows no colregs; set COLREGS_LIB to the folder of libcolregs.a"
        );
        String::from_utf8(found.stdout).expect("a path in UTF-8").trim().to_owned()
    });
    println!("cargo:rustc-link-search=native={folder}");
    println!("cargo:rustc-link-lib=static=colregs");
}
