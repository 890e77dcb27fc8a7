//! Compiles the model of document 01, and links the proved library where
//! compare/run has it: `PHEL_ARCHIVES` names the folder of libphelgomrit.a and
//! libcompare_entries.a. Without both there is the model alone. `CC` names the C
//! compiler, `AR` the archiver.

use std::{
    env, fs,
    path::{Path, PathBuf},
    process::Command,
};

const ARCHIVES: [&str; 2] = ["phelgomrit", "compare_entries"];

/// The tool that the variable names; else the usual one here, or the target's own
/// where that is another machine.
fn tool(variable: &str, here: &str, crossed: &str) -> String {
    println!("cargo:rerun-if-env-changed={variable}");
    let target = env::var("TARGET").unwrap_or_default();
    let usual = if env::var("HOST").as_ref() == Ok(&target) {
        here.to_string()
    } else {
        format!("{}-{crossed}", target.replace("-unknown", ""))
    };
    env::var(variable).unwrap_or(usual)
}

fn succeed(command: &mut Command) {
    let status = command.status();
    let ended = status.map(|status| status.success());
    assert!(matches!(ended, Ok(true)), "{command:?} failed: {ended:?}");
}

/// Compiles every file of the folder model/ into one archive.
fn model(root: &Path, out: &Path) {
    let (folder, include) = (root.join("model"), root.join("include"));
    println!("cargo:rerun-if-changed={}", folder.display());
    println!("cargo:rerun-if-changed={}", include.display());
    let files = fs::read_dir(&folder).expect("the folder model/");
    let files = files.map(|file| file.expect("a file of model/").path());
    let sources = files.filter(|path| path.extension().map_or(false, |end| end == "c"));
    let mut objects = Vec::new();
    for source in sources {
        let object = out.join(source.file_name().expect("a name")).with_extension("o");
        let mut cc = Command::new(tool("CC", "cc", "gcc"));
        cc.args(["-std=c99", "-O2", "-fPIC", "-Wall", "-Wextra", "-I"]);
        cc.arg(&include).arg("-c").arg(&source).arg("-o");
        succeed(cc.arg(&object));
        objects.push(object);
    }
    let archive = out.join("libmodel.a");
    let _ = fs::remove_file(&archive);
    succeed(Command::new(tool("AR", "ar", "ar")).arg("crs").arg(&archive).args(&objects));
    println!("cargo:rustc-link-search=native={}", out.display());
    println!("cargo:rustc-link-lib=static=model");
}

fn main() {
    let variable = |name: &str| PathBuf::from(env::var(name).expect("cargo sets it"));
    let root = variable("CARGO_MANIFEST_DIR").join("../..");
    model(&root, &variable("OUT_DIR"));
    println!("cargo:rerun-if-env-changed=PHEL_ARCHIVES");
    let folder = env::var("PHEL_ARCHIVES").unwrap_or_default();
    let archive = |name: &str| Path::new(&folder).join(format!("lib{name}.a"));
    if folder.is_empty() || !ARCHIVES.iter().all(|name| archive(name).is_file()) {
        return;
    }
    println!("cargo:rustc-link-search=native={folder}");
    for name in ARCHIVES {
        println!("cargo:rerun-if-changed={}", archive(name).display());
        println!("cargo:rustc-link-lib=static={name}");
    }
    println!("cargo:rustc-cfg=linked");
}
