//! The order printer run on inputs long and short, against the separately written tree and a line reader written from document 01.
//! Arguments: the program, a scratch folder, and perhaps a seed and a size.
#[path = "../tree/reference.rs"]
mod reference;

use reference::*;
use std::fmt::Write as _;
use std::fs::File;
use std::io::Write as _;
use std::os::fd::OwnedFd;
use std::os::unix::net::UnixDatagram;
use std::process::{Command, Stdio};

const PIECE: usize = 4096;

// ---- what must be printed

/// The key of a code: two letters, three letters or digits, seven digits.
fn key(code: &[u8]) -> Option<u64> {
    let form = code.iter().enumerate().all(|(i, c)| (i < 5 && c.is_ascii_uppercase()) || (i >= 2 && c.is_ascii_digit()));
    let value = |c: u8| if c.is_ascii_digit() { c - b'0' } else { c - b'A' + 10 } as u64;
    (code.len() == 12 && form).then(|| {
        let first = code[..5].iter().fold(0, |n, &c| 36 * n + value(c));
        code[5..].iter().fold(first, |n, &c| 10 * n + value(c))
    })
}

/// Decimal digits that fit a word.
fn recording(text: &[u8]) -> Option<u64> {
    let digits = std::str::from_utf8(text).ok().filter(|t| t.bytes().all(|b| b.is_ascii_digit()))?;
    digits.parse().ok()
}

/// What a line asks for, or the number that it is refused with: its form is judged first, then its code.
fn asked(line: &[u8]) -> Result<Call, u64> {
    let fields: Vec<&[u8]> = line.split(|&b| b == b' ').collect();
    match fields[..] {
        [b"+", code, digits] if !code.is_empty() => {
            let r = recording(digits).ok_or(0u64)?;
            Ok(Call::Insert(1, key(code).ok_or(1u64)?, r, 0))
        }
        [b"-", code] if !code.is_empty() => Ok(Call::Delete(1, key(code).ok_or(1u64)?)),
        _ => Err(0),
    }
}

/// A line, the table before it, and what is printed for it.
struct Step {
    line: Vec<u8>,
    table: Vec<u64>,
    text: String,
}

/// The steps of an input on a table of so many nodes; how often each number was printed (0 to 14), and how often `done`.
fn steps(input: &[u8], nodes: u64, numbers: &mut [u64; 15], done: &mut u64) -> Vec<Step> {
    let mut table = make(nodes, 1);
    let mut lines: Vec<&[u8]> = input.split(|&b| b == b'\n').collect();
    // What follows the last line feed counts unless it is empty.
    if lines.last().map_or(false, |l| l.is_empty()) {
        lines.pop();
    }
    let mut all = Vec::new();
    for line in lines {
        let before = table.clone();
        let mut text = String::new();
        match asked(line).and_then(|call| write(&table, LIST_WORDS, ORDERED, call)) {
            Ok(w) => {
                let os = orders(&w.stores, ORDERED);
                for o in &os {
                    match o {
                        Order::Store(word, value) => writeln!(text, "store {word} {value}").unwrap(),
                        Order::Flush(line) => writeln!(text, "flush {line}").unwrap(),
                        Order::Barrier => panic!("a barrier for the ordered dock"),
                    }
                }
                writeln!(text, "done {} {}", w.stores.len(), os.len() - w.stores.len()).unwrap();
                *done += 1;
                table = w.t;
            }
            Err(n) => {
                writeln!(text, "refused {n}").unwrap();
                numbers[n as usize] += 1;
            }
        }
        all.push(Step { line: line.to_vec(), table: before, text });
    }
    all
}

// ---- the program

/// How the input is handed over: as a file, which is read in pieces of 4,096 bytes; through a pipe, in what pieces the system likes; or
/// in pieces of chosen lengths, one for each reading.
enum Feed {
    File,
    Pipe,
    Pieces(Vec<usize>),
}

fn printed(program: &str, scratch: &str, input: &[u8], feed: Feed) -> Vec<u8> {
    let mut command = Command::new(program);
    command.stdout(Stdio::piped());
    let bytes = input.to_vec();
    let (child, feeder) = match feed {
        Feed::File => {
            let path = format!("{scratch}/input");
            std::fs::write(&path, input).expect("the input's file");
            (command.stdin(File::open(path).expect("the input's file")).spawn(), None)
        }
        Feed::Pipe => {
            let mut child = command.stdin(Stdio::piped()).spawn();
            let pipe = child.as_mut().ok().and_then(|c| c.stdin.take());
            (child, Some(std::thread::spawn(move || pipe.map_or(Ok(()), |mut p| p.write_all(&bytes)))))
        }
        Feed::Pieces(lengths) => {
            let (ours, theirs) = UnixDatagram::pair().expect("a pair of sockets");
            let child = command.stdin(OwnedFd::from(theirs)).spawn();
            // The program reads one of these pieces at a time; a piece of no bytes is the input's end.
            let sending = move || {
                let mut rest = &bytes[..];
                for n in lengths {
                    let (piece, after) = rest.split_at(n);
                    ours.send(piece)?;
                    rest = after;
                }
                ours.send(&[]).map(|_| ())
            };
            (child, Some(std::thread::spawn(sending)))
        }
    };
    // Else the command keeps the other end of the sockets open.
    drop(command);
    let output = child.expect("the printer runs").wait_with_output().expect("the printer's output");
    let fed = feeder.map_or(Ok(()), |f| f.join().expect("the feeder"));
    assert!(output.status.success() && fed.is_ok(), "the printer ended with {:?}, its input with {fed:?}", output.status);
    output.stdout
}

struct Run {
    program: String,
    scratch: String,
    seed: u64,
    numbers: [u64; 15],
    done: u64,
    inputs: u64,
    bytes: usize,
    other_with_five: u64,
}

impl Run {
    /// The program prints of the input what it must.
    fn same(&mut self, name: &str, input: &[u8], feed: Feed) {
        let want = steps(input, 4, &mut self.numbers, &mut self.done);
        let got = printed(&self.program, &self.scratch, input, feed);
        self.inputs += 1;
        self.bytes += input.len();
        let mut rest = &got[..];
        for (i, step) in want.iter().enumerate() {
            match rest.strip_prefix(step.text.as_bytes()) {
                Some(after) => rest = after,
                None => self.fail(name, i, step, rest),
            }
        }
        if !rest.is_empty() {
            println!("FAILED: {name}: after the last line the printer printed {:?}\nseed {}", start_of(rest), self.seed);
            std::process::exit(1);
        }
    }

    fn fail(&self, name: &str, i: usize, step: &Step, rest: &[u8]) {
        let got: Vec<u8> = rest.iter().copied().take(step.text.len() + 20).collect();
        println!("FAILED: {name}: line {} of {} bytes: {:?}", i + 1, step.line.len(), start_of(&step.line));
        println!("wanted {:?}\ngot    {:?}\nseed {}\ntable {:?}", step.text, String::from_utf8_lossy(&got), self.seed, step.table);
        std::process::exit(1);
    }

    /// Whether a table of five nodes would print something else of this input.
    fn tells_five(&mut self, input: &[u8]) {
        let text = |nodes| steps(input, nodes, &mut [0; 15], &mut 0).iter().map(|s| s.text.clone()).collect::<String>();
        self.other_with_five += (text(4) != text(5)) as u64;
    }
}

fn start_of(bytes: &[u8]) -> String {
    String::from_utf8_lossy(&bytes[..bytes.len().min(120)]).into_owned()
}

// ---- inputs

/// Inputs of a few lines: every form, and ends with and without a line feed.
const SHORT: &[&[u8]] = &[
    b"",
    b"\n",
    b"\n\n\n",
    b" ",
    b"\r",
    b"\r\n",
    b"+ AA0001912345 7\n- AA0001912345\n",
    b"+ AA0001912345 7\n- AA0001912345",
    b"+ AA0001912345 7\r\n- AA0001912345\r\n- AA0001912345",
    b"+ AA0001912345 7\n\n- AA0001912345\n\n",
    b"+ AA0001912345 7\n+ AA0001912345 8\n+ AA0001912346 7\n- AA0001912347\n+ AA0001912345 0\n+ AA0001912346 0\n+ AA0001912346 18446744073709551615",
    b"+ AA0001912345 18446744073709551614\n+ AA0001912346 18446744073709551616\n+ AA0001912346 00000000000000000000018446744073709551614\n",
    b"+ AA0001912345 72057594037927935\n+ AA0001912346 72057594037927936\n+ AA0001912346 72057594037927937\n+ AA0001912346 00000000000000000000072057594037927934\n+ AA0001912347 144115188075855872\n",
    b"+ ZZZZZ9999999 1\n- ZZZZZ9999999\n+ 1A0001912345 1\n+ aA0001912345 1\n+ AA000191234A 1\n+ AA000191234 1\n+ AA00019123450 1\n+ A\xc3\x84001912345 1\n",
    b"+ 1A0001912345 x\n+ 1A0001912345 \n+ 1A0001912345\n- 1A0001912345 \n- 1A0001912345 7\n",
    b"+  AA0001912345 7\n+ AA0001912345  7\n+ AA0001912345 7 \n + AA0001912345 7\n+AA0001912345 7\n++ AA0001912345 7\n* AA0001912345 7\n+\tAA0001912345\t7\n",
    b"+ AA0001912345 +7\n+ AA0001912345 -7\n+ AA0001912345 7.\n+ AA0001912345 0x7\n+ AA0001912345 \n+ \n+\n-\n- \n-  \n+ AA0001912345",
    b"- AA0001912345\x00\n\x00\n+ AA0001912345 7\x00\n\xff\xfe\n+ AA0001912345 007\n-",
];

fn code(i: u64) -> String {
    format!("XK{}{:07}", ["A04", "000", "ZZZ", "9Z0"][(i % 4) as usize], i * 37)
}

/// Lines that each end of a piece cuts at another byte: before its first, after each, and after its line feed.
fn cut_lines() -> Vec<u8> {
    let mut input = Vec::new();
    let mut lines = Vec::new();
    for i in 0..6 {
        lines.push(format!("+ {} {}\n", code(i), 72057594037927000 + i));
        lines.push(format!("+ {} {}\n", code(i), i + 1));
        lines.push(format!("- {}\n", code(i + 3)));
        lines.push(format!("+ {} 0\n", code(i + 1)));
    }
    lines.extend(["\n", "-\n", "+ AA0001912345\n", "- AA0001912345 \n", "- AA00019123456\r\n"].map(String::from));
    for line in lines {
        for cut in 0..=line.len() {
            // A line of another form up to where this one begins.
            let begin = (input.len() + 2 * PIECE) / PIECE * PIECE - cut;
            input.resize(begin - 1, b'x');
            input.push(b'\n');
            input.extend(line.bytes());
        }
    }
    input
}

/// Codes rising or falling until no node is left, then deleted and entered again.
fn filled(rising: bool) -> Vec<u8> {
    let mut input = String::new();
    for round in 0..3u64 {
        for i in 0..60u64 {
            let i = if rising { i } else { 60 - i };
            writeln!(input, "+ AA000{:07} {}", 10 * i + round, 100 * round + i + 1).unwrap();
        }
        for i in (round..60).step_by(3) {
            writeln!(input, "- AA000{:07}", 10 * i).unwrap();
        }
    }
    input.into_bytes()
}

/// A table of four nodes takes 21 rising codes. They are deleted again, in turn from either end, and as many others come above or below
/// them: every line is done, since the leaves that are emptied come back.
fn refilled() -> (Vec<u8>, u64) {
    let mut input = String::new();
    let mut done = 0;
    for round in 0..12u64 {
        let first = if round % 2 == 0 { 500_000 + 1_000 * round } else { 500_000 - 1_000 * round };
        let codes: Vec<u64> = (0..21).map(|i| first + 10 * i).collect();
        for (i, c) in codes.iter().enumerate() {
            writeln!(input, "+ AA000{c:07} {}", 100 * round + i as u64 + 1).unwrap();
        }
        let falling = round % 3 == 0;
        for i in 0..codes.len() {
            writeln!(input, "- AA000{:07}", codes[if falling { codes.len() - 1 - i } else { i }]).unwrap();
        }
        done += 2 * codes.len() as u64;
    }
    (input.into_bytes(), done)
}

/// A line of any kind; most are insertions and deletions of a few codes.
fn some_line(codes: u64, random: &mut Random) -> Vec<u8> {
    let mut c = code(random.below(codes)).into_bytes();
    let many = [1usize, 13, 200, 5_000][random.below(4) as usize];
    if random.below(30) == 0 {
        let i = random.below(12) as usize;
        c[i] = random.below(256) as u8;
    }
    let r = match random.below(30) {
        0 => b"0".to_vec(),
        1 => MARK.to_string().into_bytes(),
        2 => (MARK as u128 + random.below(40) as u128).to_string().into_bytes(),
        3 => (MOST_RECORDING - 1 + random.below(4)).to_string().into_bytes(),
        4 => [vec![b'0'; many], (1 + random.below(60)).to_string().into_bytes()].concat(),
        5 => vec![b'1' + random.below(9) as u8; many],
        _ => (1 + random.below(90)).to_string().into_bytes(),
    };
    match random.below(60) {
        0 => vec![],
        1 => (0..random.below(30)).map(|_| random.below(256) as u8).filter(|&b| b != b'\n').collect(),
        2 => vec![[b'A', b' ', b'+', b'-', b'\r', b'0'][random.below(6) as usize]; many],
        3 => [b"- ".to_vec(), vec![b'A'; many]].concat(),
        4 => [b"+ ".to_vec(), vec![b'0'; many], b" 7".to_vec()].concat(),
        5 => [&b"- "[..], &c, b"\r"].concat(),
        6 => [&b"+ "[..], &c, b" ", &r, b"\r"].concat(),
        7 => [&b"+ "[..], &c, b" "].concat(),
        8 => [&b"- "[..], &c, b" ", &r].concat(),
        9 => [&b"+  "[..], &c, b" ", &r].concat(),
        10..=24 => [&b"- "[..], &c].concat(),
        _ => [&b"+ "[..], &c, b" ", &r].concat(),
    }
    .into_iter()
    .map(|b| if b == b'\n' { b'x' } else { b })
    .collect()
}

fn some_input(least: usize, random: &mut Random) -> Vec<u8> {
    let codes = [12, 30, 70][random.below(3) as usize];
    let mut input = Vec::new();
    while input.len() < least {
        input.extend(some_line(codes, random));
        input.push(b'\n');
    }
    if random.below(2) == 0 {
        input.pop();
    }
    input
}

/// Lengths of pieces that are no input's end: 1 to `most` bytes each.
fn pieces(len: usize, most: usize, random: &mut Random) -> Vec<usize> {
    let mut lengths = Vec::new();
    let mut left = len;
    while left > 0 {
        let n = (1 + random.below(most as u64) as usize).min(left);
        lengths.push(n);
        left -= n;
    }
    lengths
}

fn main() {
    let arguments: Vec<String> = std::env::args().skip(1).collect();
    let number = |i: usize, other| arguments.get(i).map_or(other, |s| s.parse().expect("a number"));
    let (seed, size) = (number(2, 20_261_117), number(3, 60));
    println!("seed {seed}, size {size}");
    let mut random = Random(seed);
    let mut run = Run { program: arguments[0].clone(), scratch: arguments[1].clone(), seed, numbers: [0; 15], done: 0, inputs: 0, bytes: 0, other_with_five: 0 };
    let mut passed = 0;

    // Short inputs, whole and a byte at a time.
    for input in SHORT {
        run.same("a short input", input, Feed::File);
        run.same("a short input through a pipe", input, Feed::Pipe);
        run.same("a short input byte by byte", input, Feed::Pieces(vec![1; input.len()]));
    }
    passed += 1;

    // Lines cut at a piece's end after every byte.
    let input = cut_lines();
    run.same("lines cut at a piece's end", &input, Feed::File);
    run.same("the same byte by byte", &input[..20 * PIECE], Feed::Pieces(vec![1; 20 * PIECE]));
    passed += 1;

    // Tables filled until 10.
    for rising in [true, false] {
        let input = filled(rising);
        let before = run.numbers[10];
        run.same("a table filled", &input, Feed::File);
        assert!(run.numbers[10] > before, "10 was not reached");
        run.tells_five(&input);
    }
    assert!(run.other_with_five == 2, "a table of five nodes would print the same");
    passed += 1;

    // Tables filled, emptied and filled again.
    let (input, lines) = refilled();
    let before = run.done;
    run.same("a table filled again and again", &input, Feed::File);
    assert!(run.done == before + lines, "a line of a table filled again was refused");
    passed += 1;

    // Random inputs over several pieces, in all ways.
    for i in 0..size {
        let input = some_input(if i == 0 { 300 * PIECE } else { 2 * PIECE + random.below(12 * PIECE as u64) as usize }, &mut random);
        let lengths = pieces(input.len(), [1, 7, 300, PIECE][(i % 4) as usize], &mut random);
        run.same("a random input", &input, Feed::File);
        run.same("a random input in random pieces", &input, Feed::Pieces(lengths));
        if i % 4 == 0 {
            run.same("a random input through a pipe", &input, Feed::Pipe);
        }
        run.tells_five(&input);
    }
    passed += 1;

    println!("inputs {}, bytes {}, lines done {}; refused by number: {:?}", run.inputs, run.bytes, run.done, run.numbers);
    println!("inputs that a table of 5 nodes would print otherwise: {}", run.other_with_five);
    let met = [0, 1, 6, 7, 8, 9, 10].iter().all(|&n: &usize| run.numbers[n] >= 500);
    assert!(size < 60 || (met && run.done >= 10_000 && run.other_with_five >= 15), "a number was not met often enough");
    passed += 1;

    println!("{passed} passed, 0 failed");
}
