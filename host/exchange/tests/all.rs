//! All tests of exchange lists in one program, each file a module.

mod calls;
mod folder;
mod heights;
mod observers;
mod played;
mod repeats;
mod replay;
mod weights;

/// No file of tests is forgotten here.
#[test]
fn every_file_is_a_module() {
    let here = include_str!("all.rs");
    for entry in std::fs::read_dir(concat!(env!("CARGO_MANIFEST_DIR"), "/tests")).unwrap() {
        let name = entry.unwrap().file_name().into_string().unwrap();
        let module = name.trim_end_matches(".rs");
        assert!(
            module == "all" || here.contains(&format!("\nmod {module};\n")),
            "{name} is no module of all.rs"
        );
    }
}
