//! All tests of the reference in one program, each file a module.

mod answers;
mod common;
mod deliver;
mod editions;
mod equivocation;
mod frames;
mod lettered;
mod links;
mod log;
mod long_heights;
mod long_seasons;
mod moves;
mod network;
mod observer;
mod observer_beside;
mod observer_robustness;
mod observer_soundness;
mod old_bytes;
mod packet;
mod refusal_order;
mod refusals;
mod rehearsal;
mod repeats;
mod robustness;
mod sha256;
mod soundness;
mod weights;
mod weights_in_books;
mod weights_in_quorums;

/// No file of tests is forgotten here.
#[test]
fn every_file_is_a_module() {
    let here = include_str!("all.rs");
    for entry in std::fs::read_dir(concat!(env!("CARGO_MANIFEST_DIR"), "/tests")).unwrap() {
        let name = entry.unwrap().file_name().into_string().unwrap();
        let module = name.trim_end_matches(".rs");
        assert!(
            module == "all" || here.contains(&format!("\nmod {module};\n")),
            "{name} is no module of all.rs"
        );
    }
}
