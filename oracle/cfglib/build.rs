//! Lays the published files and the stand-in out in one source tree.
//!
//! The published files come from the folder `CFGLIB_SRC`, or from
//! `../shared/docs/src` beside the repository, and are copied to the build's
//! output folder only.

use std::path::{Path, PathBuf};
use std::{env, fs};

/// The published files that are compiled, unchanged.
const PUBLISHED: [&str; 10] = [
    "block.rs",
    "cfg.rs",
    "region.rs",
    "builder/address.rs",
    "builder/address/edges.rs",
    "builder/address/leaders.rs",
    "builder/address/route.rs",
    "builder/address/route/graph.rs",
    "builder/address/route/trie.rs",
    "flow/transfer.rs",
];

/// The stand-in for modules that were not published and are used.
const STAND_IN: [&str; 9] = [
    "builder.rs",
    "cfg/mutation.rs",
    "cfg/regions.rs",
    "edge.rs",
    "flow.rs",
    "graph.rs",
    "graph/edge_view.rs",
    "graph/store.rs",
    "identity.rs",
];

/// Modules that the published files declare and nothing here uses: empty but
/// for the names that are brought in from them.
const UNUSED: [(&str, &[&str]); 8] = [
    ("cfg/anchors.rs", &[]),
    ("cfg/cleanup.rs", &[]),
    ("cfg/compact.rs", &["CfgRenumbering"]),
    ("cfg/subgraph.rs", &[]),
    ("cfg/text.rs", &["parse_cfg_text"]),
    ("cfg/view.rs", &[]),
    ("region/metadata.rs", &["HandlerFilters", "HandlerMetadata", "HandlerTypes"]),
    (
        "region/recover.rs",
        &[
            "ExclusiveExtent",
            "ExtentIssue",
            "ExtentPromotionDecision",
            "ExtentPromotionStatus",
            "ExtentStatus",
            "promote_exclusive_extents",
            "promote_handler_extents",
            "recover_exclusive_extents",
            "recover_exclusive_extents_with",
        ],
    ),
];

/// The modules at the root of the tree.
const ROOTS: [&str; 8] = ["block", "builder", "cfg", "edge", "flow", "graph", "identity", "region"];

fn main() {
    let here = PathBuf::from(env::var("CARGO_MANIFEST_DIR").expect("set by cargo"));
    let out = PathBuf::from(env::var("OUT_DIR").expect("set by cargo"));
    let tree = out.join("tree");

    println!("cargo::rerun-if-env-changed=CFGLIB_SRC");
    let given = env::var_os("CFGLIB_SRC").map(PathBuf::from);
    let published =
        given.unwrap_or_else(|| here.join("../../../shared/docs/src")).join("crates/cfglib/src");
    for file in PUBLISHED {
        copy(&published.join(file), &tree.join(file));
    }
    for file in STAND_IN {
        copy(&here.join("stand_in").join(file), &tree.join(file));
    }
    for (file, names) in UNUSED {
        let text: String = names
            .iter()
            .map(|name| format!("#[allow(non_camel_case_types)]\npub struct {name};\n"))
            .collect();
        write(&tree.join(file), &text);
    }

    let modules: String = ROOTS.iter().map(|name| format!("    pub mod {name};\n")).collect();
    let tree = tree.to_str().expect("a path of text");
    write(
        &out.join("modules.rs"),
        &format!("#[path = {tree:?}]\nmod tree {{\n{modules}}}\npub use tree::*;\n"),
    );
}

fn copy(from: &Path, to: &Path) {
    println!("cargo::rerun-if-changed={}", from.display());
    let text = fs::read_to_string(from).unwrap_or_else(|error| {
        panic!("{}: {error}; CFGLIB_SRC names the folder of the published files", from.display())
    });
    write(to, &text);
}

fn write(to: &Path, text: &str) {
    fs::create_dir_all(to.parent().expect("a file in a folder")).expect("a folder of the build");
    fs::write(to, text).expect("a file of the build");
}
