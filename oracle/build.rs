//! Finds document 000 and writes the module declarations that compile its files unchanged.

use std::{env, fs, path::Path, path::PathBuf};

fn main() {
    println!("cargo:rerun-if-env-changed=BUSLATIM_RUST");
    let here = PathBuf::from(env::var("CARGO_MANIFEST_DIR").unwrap());
    let out = PathBuf::from(env::var("OUT_DIR").unwrap());
    let docs = env::var_os("BUSLATIM_RUST").map_or(here.join("../../shared/docs/src"), PathBuf::from);
    let docs = docs.canonicalize().unwrap_or_else(|_| {
        panic!("document 000 is not at {}: set BUSLATIM_RUST to its directory", docs.display())
    });
    let graph = docs.join("language/move-borrow-graph/src");
    let verifier = docs.join("language/move-bytecode-verifier/src");
    let safety = verifier.join("reference_safety");

    // mod.rs looks for abstract_state.rs beside itself: a copy of it stands beside a file of ours that
    // hands the Rust's abstract_state.rs on and adds the watched run, which so sees what is private there.
    let beside = out.join("reference_safety");
    fs::create_dir_all(&beside).unwrap();
    fs::copy(safety.join("mod.rs"), beside.join("mod.rs")).unwrap();
    let state = safety.join("abstract_state.rs");
    fs::write(
        beside.join("abstract_state.rs"),
        format!(
            "{}pub(crate) use original::{{AbstractState, AbstractValue}};\n\
             #[cfg(feature = \"watched\")]\n#[path = {:?}]\nmod watched;\n",
            module("original", "", &state),
            here.join("src/watched.rs")
        ),
    )
    .unwrap();

    let mut text = String::new();
    text += &module("paths", "pub ", &graph.join("paths.rs"));
    text += &module("references", "pub ", &graph.join("references.rs"));
    text += &module("rust_graph", "pub ", &graph.join("graph.rs"));
    text += &module("absint", "pub ", &verifier.join("absint.rs"));
    text += &module("reference_safety", "pub(crate) ", &beside.join("mod.rs"));
    text += &format!("pub const MOD_RS: &str = include_str!({:?});\n", safety.join("mod.rs"));
    text += &format!("pub const ABSTRACT_STATE_RS: &str = include_str!({state:?});\n");
    fs::write(out.join("rust.rs"), text).unwrap();
    for file in ["paths.rs", "references.rs", "graph.rs"] {
        println!("cargo:rerun-if-changed={}", graph.join(file).display());
    }
    for file in ["absint.rs", "reference_safety/mod.rs", "reference_safety/abstract_state.rs"] {
        println!("cargo:rerun-if-changed={}", verifier.join(file).display());
    }
    link_ours();
}

fn module(name: &str, visible: &str, file: &Path) -> String {
    format!("#[allow(warnings)]\n#[path = {file:?}]\n{visible}mod {name};\n")
}

/// BUSLATIM_LIB is the path of our static library, `.../libNAME.a`.
fn link_ours() {
    println!("cargo:rerun-if-env-changed=BUSLATIM_LIB");
    if env::var_os("CARGO_FEATURE_OURS").is_none() {
        return;
    }
    let library = PathBuf::from(env::var("BUSLATIM_LIB").expect("the feature `ours` needs BUSLATIM_LIB"));
    let library = library.canonicalize().expect("BUSLATIM_LIB names no file");
    println!("cargo:rerun-if-changed={}", library.display());
    let name = library.file_stem().unwrap().to_str().unwrap();
    println!("cargo:rustc-link-search=native={}", library.parent().unwrap().display());
    println!("cargo:rustc-link-lib=static={}", name.strip_prefix("lib").expect("a name lib*.a"));
}
