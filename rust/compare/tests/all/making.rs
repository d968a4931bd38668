//! Making lists: generated and damaged blocks, every line of the vectors, and every room.

use crate::generated::compare_call;
use crate::vectors::lines;
use compare::library::{self, Answer};
use compare::{driven, Lent, Manner};
use second::text;

const MARK: u8 = 0xA5;

#[test]
fn lists_agree() {
    compare_call("make_list", &[0, 1, 2, 3, 4, 5, 7]);
}

/// Status, length, prices and list of each line, whichever way the library is called.
#[test]
fn vectors() {
    for make_list in [library::make_list, driven::make_list] {
        compare_lines("make.txt", 353, make_list);
        compare_lines("make-more.txt", 2, make_list);
    }
}

fn compare_lines(name: &str, count: usize, make_list: fn(&[u8], &mut [u8]) -> Answer) {
    for (number, line) in lines(name, count).iter().enumerate() {
        let (block, expected) = line.split_once(' ').expect("a line has an answer");
        let bytes = text::parse_hex(block).expect("hexadecimal").into_boxed_slice();
        let mut room = Lent::new(Manner::Bordered, &[MARK; 65_535], !MARK);
        let made = make_list(&bytes, room.part());
        let (list, behind) = room.contents().split_at(usize::from(made.size));
        let list = if list.is_empty() { "-".to_string() } else { text::hex(list) };
        let said =
            format!("{} {} {} {} {list}", made.status, made.size, made.price, made.list_price);
        assert_eq!(said, expected, "{name}, line {}", number + 1);
        assert!(room.kept_borders() && behind.iter().all(|&byte| byte == MARK));
    }
}

/// Every block of the vectors into every room up to one byte more than its list takes.
#[test]
fn rooms() {
    for line in lines("make.txt", 353) {
        let block = line.split(' ').next().expect("a line has a block");
        let bytes = text::parse_hex(block).expect("hexadecimal");
        let length = second::calls::make_list(&bytes, &mut []).length;
        for size in 0..=length + 1 {
            if let Err(difference) = compare::make_list(Manner::Bordered, &bytes, size) {
                panic!("{difference}");
            }
        }
    }
}
