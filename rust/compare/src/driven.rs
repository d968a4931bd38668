//! The calls by way of the driver, which is linked with the library and asked by pipes (its form of
//! requests and answers stands in driver/driver.c). Each thread has a driver of its own.

use std::cell::RefCell;
use std::io::{BufReader, Read, Write};
use std::process::{Child, ChildStdout, Stdio};

use crate::programs;
use nephinor::calls::Answer;

/// The driver, and one whose library writes where it may not.
pub const DRIVER_PROGRAM: &str = env!("DRIVER");
pub const FAULTY_PROGRAM: &str = env!("FAULTY_DRIVER");

thread_local! {
    static DRIVER: RefCell<Driver> = RefCell::new(Driver::start());
}

/// What a request lends: its contents go there, and come back if the call may write them.
enum Slice<'a> {
    Bytes(&'a [u8]),
    Numbers(&'a [u32]),
}

struct Driver {
    child: Child,
    answers: BufReader<ChildStdout>,
    buffer: Vec<u8>,
}

impl Driver {
    fn start() -> Driver {
        let mut child = programs::command(DRIVER_PROGRAM.as_ref())
            .stdin(Stdio::piped())
            .stdout(Stdio::piped())
            .spawn()
            .expect("the driver starts");
        let answers = BufReader::new(child.stdout.take().expect("its output is a pipe"));
        Driver { child, answers, buffer: Vec::new() }
    }

    /// Makes a call; what was lent for writing is then to be taken back, in its order.
    fn ask(&mut self, call: u32, slices: &[Slice]) -> Answer {
        let mut header = [0; 5];
        header[0] = call;
        for (length, slice) in header[1..].iter_mut().zip(slices) {
            *length = match slice {
                Slice::Bytes(bytes) => bytes.len(),
                Slice::Numbers(numbers) => numbers.len(),
            } as u32;
        }
        self.buffer.clear();
        self.buffer.extend(header.into_iter().flat_map(u32::to_le_bytes));
        for slice in slices {
            match slice {
                Slice::Bytes(bytes) => self.buffer.extend_from_slice(bytes),
                Slice::Numbers(numbers) => {
                    self.buffer.extend(numbers.iter().flat_map(|number| number.to_le_bytes()));
                }
            }
        }
        let requests = self.child.stdin.as_mut().expect("its input is a pipe");
        requests.write_all(&self.buffer).expect("the driver takes requests");
        let mut number = [0; 8];
        self.take_bytes(&mut number);
        Answer::unpacked(u64::from_le_bytes(number))
    }

    fn take_bytes(&mut self, bytes: &mut [u8]) {
        self.answers.read_exact(bytes).expect("the driver answers; where it ends, it says why");
    }

    fn take_numbers(&mut self, numbers: &mut [u32]) {
        let mut bytes = std::mem::take(&mut self.buffer);
        bytes.resize(4 * numbers.len(), 0);
        self.take_bytes(&mut bytes);
        for (number, bytes) in numbers.iter_mut().zip(bytes.chunks_exact(4)) {
            *number = u32::from_le_bytes([bytes[0], bytes[1], bytes[2], bytes[3]]);
        }
        self.buffer = bytes;
    }
}

/// Its input ends, and so does the driver.
impl Drop for Driver {
    fn drop(&mut self) {
        if std::thread::panicking() {
            let _ = self.child.kill();
        }
        let _ = self.child.wait();
    }
}

/// Reads a block into a table of numbers: status, and how many numbers that takes.
pub fn read_block(bytes: &[u8], numbers: &mut [u32]) -> Answer {
    DRIVER.with_borrow_mut(|driver| {
        let answer = driver.ask(0, &[Slice::Bytes(bytes), Slice::Numbers(numbers)]);
        driver.take_numbers(numbers);
        answer
    })
}

/// Writes the block that a table of numbers says: status, and how many bytes that takes.
pub fn write_block(numbers: &[u32], room: &mut [u8]) -> Answer {
    DRIVER.with_borrow_mut(|driver| {
        let answer = driver.ask(1, &[Slice::Numbers(numbers), Slice::Bytes(room)]);
        driver.take_bytes(room);
        answer
    })
}

/// Runs a block on what is lent: status and price paid.
pub fn run_block(bytes: &[u8], variables: &mut [u32], cells: &mut [u32]) -> Answer {
    use Slice::{Bytes, Numbers};
    DRIVER.with_borrow_mut(|driver| {
        let answer = driver.ask(2, &[Bytes(bytes), Numbers(variables), Numbers(cells)]);
        driver.take_numbers(variables);
        driver.take_numbers(cells);
        answer
    })
}

/// Runs a list beside its block on what is lent: status and price paid.
pub fn run_list(block: &[u8], list: &[u8], variables: &mut [u32], cells: &mut [u32]) -> Answer {
    use Slice::{Bytes, Numbers};
    DRIVER.with_borrow_mut(|driver| {
        let slices = [Bytes(block), Bytes(list), Numbers(variables), Numbers(cells)];
        let answer = driver.ask(3, &slices);
        driver.take_numbers(variables);
        driver.take_numbers(cells);
        answer
    })
}

/// Makes the list of a block into the room: status, length, and the prices of block and list.
pub fn make_list(bytes: &[u8], room: &mut [u8]) -> Answer {
    DRIVER.with_borrow_mut(|driver| {
        let answer = driver.ask(4, &[Slice::Bytes(bytes), Slice::Bytes(room)]);
        driver.take_bytes(room);
        answer
    })
}
