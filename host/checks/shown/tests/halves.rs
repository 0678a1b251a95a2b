//! What users take depends on nothing that checks it.

use std::fs;
use std::path::Path;

#[test]
fn the_tools_lean_on_nothing_outside_of_their_folder() {
    let tools = Path::new(env!("CARGO_MANIFEST_DIR")).join("../../tools");
    let mut paths = 0;
    for entry in fs::read_dir(&tools).expect("the folder is there") {
        let folder = entry.expect("it can be read").path();
        let Ok(manifest) = fs::read_to_string(folder.join("Cargo.toml")) else {
            continue;
        };
        for line in manifest.lines().filter(|line| line.contains("path = ")) {
            let path = line.split('"').nth(1).expect("a path stands in quotes");
            let crate_name = path.strip_prefix("../").expect("a crate beside it");
            assert!(!crate_name.contains(".."), "{line}");
            assert!(
                tools.join(crate_name).join("Cargo.toml").is_file(),
                "{line}"
            );
            paths += 1;
        }
    }
    assert!(paths >= 6, "{paths} dependencies were seen");
}
