//! The sample blocks: for each of them `samples/README.md` has the two lines that the list program
//! prints.

use second::text;

const SAMPLES: &str = concat!(env!("CARGO_MANIFEST_DIR"), "/../samples");

#[test]
fn lines_are_as_the_readme_has_them() {
    let readme = std::fs::read_to_string(format!("{SAMPLES}/README.md")).expect("the readme");
    let mut count = 0;
    for section in readme.split("\n## ").skip(1) {
        let name = section.lines().next().expect("a heading");
        let block = std::fs::read(format!("{SAMPLES}/{name}")).expect("the sample is there");
        let lines: String = section
            .lines()
            .filter_map(|line| line.strip_prefix("    "))
            .map(|line| format!("{line}\n"))
            .collect();
        assert_eq!(text::list_lines(&block), lines, "{name}");
        count += 1;
    }
    let blocks = std::fs::read_dir(SAMPLES)
        .expect("the folder")
        .filter(|entry| {
            let path = entry.as_ref().expect("an entry").path();
            path.extension().is_some_and(|extension| extension == "bin")
        })
        .count();
    assert_eq!(count, blocks);
}
