//! Says where libpdp1140.a is: in the folder that P11_LIB names; or where `build p11_c` of the clone leaves it; or in the library
//! folder of the installation that has this crate.
use std::{env, path::{Path, PathBuf}, process::Command};

/// The folder of the clone's library, which is built where it isn't.
fn of_the_clone(here: &Path) -> Option<PathBuf> {
    let build = here.join("../../../build");
    build.exists().then(|| {
        let output = Command::new(&build).arg("p11_c").output().expect("build can't be run");
        assert!(output.status.success(), "{}", String::from_utf8_lossy(&output.stderr));
        Path::new(String::from_utf8_lossy(&output.stdout).trim()).parent().unwrap().to_path_buf()
    })
}

/// Below PREFIX/lib, where this is PREFIX/share/doc/p11/examples/c/p11-sys.
fn installed(here: &Path) -> Option<PathBuf> {
    let folder = here.join("../../../../../../lib");
    let below = folder.read_dir().into_iter().flatten().flatten().map(|entry| entry.path());
    std::iter::once(folder.clone()).chain(below).find(|place| place.join("libpdp1140.a").exists())
}

fn main() {
    println!("cargo::rerun-if-env-changed=P11_LIB");
    let here = PathBuf::from(env::var("CARGO_MANIFEST_DIR").unwrap());
    let folder = env::var("P11_LIB").ok().map(PathBuf::from).or_else(|| of_the_clone(&here)).or_else(|| installed(&here));
    let Some(folder) = folder.filter(|place| place.join("libpdp1140.a").exists()) else {
        panic!("there is no libpdp1140.a here: P11_LIB names its folder");
    };
    println!("cargo::rustc-link-search=native={}", folder.display());
    println!("cargo::rustc-link-lib=static=pdp1140");
}
