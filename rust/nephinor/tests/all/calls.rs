//! Reading, writing and running a block, done and refused.

use nephinor::{
    read_block, run_block, run_list, write_block, Block, Operand, Operation, Place, Refusal,
    Statement,
};

/// `a[1] = v0 >> 33; v0 = a[0]`, with v0 live out.
fn block() -> Block {
    let cell = |index| Place::Cell { array: 0, index };
    Block {
        variables: 1,
        live_out: 1,
        lengths: vec![2],
        statements: vec![
            Statement {
                operation: Operation::ShiftRight,
                destination: cell(1),
                left: Operand::Held(Place::Variable(0)),
                right: Some(Operand::Constant(33)),
            },
            Statement {
                operation: Operation::Copy,
                destination: Place::Variable(0),
                left: Operand::Held(cell(0)),
                right: None,
            },
        ],
    }
}

fn bytes() -> Vec<u8> {
    let mut room = vec![0; nephinor::MOST_BLOCK_BYTES];
    let length = write_block(&block(), &mut room).expect("the block can be written");
    room.truncate(length);
    room
}

/// S for both statements.
const LIST: [u8; 10] = [1, 0, 10, 2, 2, 0, 0, 2, 0, 1];

#[test]
fn written_and_read() {
    assert_eq!(read_block(&bytes()), Ok(block()));
    let mut room = [7; 5];
    let needed = bytes().len();
    assert_eq!(write_block(&block(), &mut room), Err(Refusal::RoomTooSmall { needed }));
    assert_eq!(room, [7; 5]);
}

#[test]
fn run() {
    let (mut variables, mut cells) = ([8], [5, 6]);
    let ran = run_block(&bytes(), &mut variables, &mut cells).expect("the block runs");
    assert_eq!((ran.price, variables, cells), (4, [5], [5, 4]));
    let (mut variables, mut cells) = ([8], [5, 6]);
    let ran = run_list(&bytes(), &LIST, &mut variables, &mut cells).expect("the list runs");
    assert_eq!((ran.price, variables, cells), (4, [5], [5, 4]));
}

#[test]
fn refused() {
    let changed = |at: usize, byte: u8| {
        let mut bytes = bytes();
        bytes[at] = byte;
        read_block(&bytes)
    };
    assert_eq!(changed(0, 2), Err(Refusal::BlockVersion));
    assert_eq!(changed(2, 0), Err(Refusal::BlockLength));
    assert_eq!(changed(4, 2), Err(Refusal::BlockLimit));
    assert_eq!(changed(10, 8), Err(Refusal::BlockForm));
    assert_eq!(changed(13, 2), Err(Refusal::BlockUndeclared));
    assert_eq!(run_block(&bytes(), &mut [8], &mut [5]), Err(Refusal::LentSize));
    let run = |list: &[u8]| run_list(&bytes(), list, &mut [8], &mut [5, 6]);
    assert_eq!(run(&LIST[..9]), Err(Refusal::ListForm));
    assert_eq!(run(&[1, 0, 7, 1, 2, 0, 2]), Err(Refusal::ListAgainstRules));
}

/// What no bytes can say is refused by the library, and not by the wrapper.
#[test]
fn too_many() {
    let mut more = block();
    more.statements = vec![more.statements[0]; 65];
    assert_eq!(write_block(&more, &mut [0; 2000]), Err(Refusal::BlockLimit));
    let mut more = block();
    more.lengths = vec![1; 9];
    assert_eq!(write_block(&more, &mut [0; 2000]), Err(Refusal::BlockLimit));
    let mut more = block();
    more.statements[0].right = None;
    assert_eq!(write_block(&more, &mut [0; 2000]), Err(Refusal::BlockForm));
}
