//! Every line of the shared vectors, which were made by programs other than this one.

use second::text;

fn lines(name: &str) -> Vec<Vec<String>> {
    let path = format!("{}/vectors/{}", env!("CARGO_MANIFEST_DIR"), name);
    let text = std::fs::read_to_string(&path).expect("the vectors are part of the package");
    text.lines().map(|line| line.split(' ').map(String::from).collect()).collect()
}

fn bytes(field: &str) -> Vec<u8> {
    text::parse_hex(field).expect("hexadecimal")
}

fn values(field: &str) -> Vec<u32> {
    text::parse_numbers(field).expect("numbers")
}

/// Compares all lines before it fails, so that one run shows every line that differs.
fn compare(name: &str, count: usize, inputs: usize, answer: impl Fn(&[String]) -> String) {
    let lines = lines(name);
    assert_eq!(lines.len(), count, "lines of {name}");
    let mut wrong = Vec::new();
    for (number, line) in lines.iter().enumerate() {
        if answer(&line[..inputs]) != line[inputs..].join(" ") {
            wrong.push(number + 1);
        }
    }
    assert!(wrong.is_empty(), "{name}: {} lines differ: {wrong:?}", wrong.len());
}

#[test]
fn make() {
    compare("make.txt", 353, 1, |line| text::make_answer(&bytes(&line[0])));
}

/// Two blocks that tell apart what no line of make.txt does: an estimate of 4 for other cells, and
/// the greatest estimate instead of the first of 0 or more. The definitions compute the same.
#[test]
fn make_more() {
    compare("make-more.txt", 2, 1, |line| text::make_answer(&bytes(&line[0])));
}

#[test]
fn run_block() {
    compare("run-block.txt", 172, 3, |line| {
        text::run_block_answer(&bytes(&line[0]), values(&line[1]), values(&line[2]))
    });
}

#[test]
fn run_list() {
    compare("run-list.txt", 854, 4, |line| {
        let (block, list) = (bytes(&line[0]), bytes(&line[1]));
        text::run_list_answer(&block, &list, values(&line[2]), values(&line[3]))
    });
}

/// The list program prints the same answers as the vectors say, in two lines or one.
#[test]
fn list_program() {
    let lines = lines("make.txt");
    assert_eq!(lines.len(), 353);
    for line in lines {
        let mut expected = line[1..5].join(" ") + "\n";
        if line[1] == "0" {
            expected += &format!("{}\n", line[5]);
        }
        assert_eq!(text::list_lines(&bytes(&line[0])), expected);
    }
}
