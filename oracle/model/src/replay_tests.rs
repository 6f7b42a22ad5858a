//! 01's replay example and the readings on unfit and missing lines.

use crate::replay::replay;

/// A header with the given numbers at their line, others 0.
fn header(set: &[(usize, u64)]) -> String {
    let mut keys = vec!["sepc".to_string(), "vstimecmp".to_string()];
    keys.extend((1..32).map(|i| format!("x{i:02}")));
    let mut text = String::new();
    for (line, key) in keys.iter().enumerate() {
        let number = set.iter().find(|s| s.0 == line).map_or(0, |s| s.1);
        text += &format!("{key}={number:016x}\n");
    }
    text
}

/// x01 is the third line.
fn x(index: usize) -> usize {
    index + 1
}

fn trap(numbers: [u64; 4]) -> String {
    let [a, b, c, d] = numbers;
    format!("scause={a:016x}\nstval={b:016x}\nhtval={c:016x}\nhtinst={d:016x}\n")
}

fn reply(word: u64, more: u64) -> String {
    format!("word={word:016x}\nmore={more:016x}\n")
}

fn four(exit: u64, sepc: u64, a0: u64, a1: u64) -> String {
    format!("exit={exit:016x}\nsepc={sepc:016x}\na0={a0:016x}\na1={a1:016x}\n")
}

fn bad(line: u64) -> String {
    format!("bad={line:016x}\n")
}

fn run(text: &str) -> String {
    String::from_utf8(replay(text.as_bytes())).unwrap()
}

fn example() -> String {
    header(&[(0, 0x8000_0000), (x(10), 0x1000), (x(17), 0x5449_4d45)]) + &trap([10, 0, 0, 0])
}

#[test]
fn the_example() {
    let want = "exit=0000000000000000\nsepc=0000000080000004\n\
                a0=0000000000000000\na1=0000000000000000\n";
    assert_eq!(run(&example()), want);
    assert_eq!(example().len(), 794);
}

#[test]
fn ends() {
    assert_eq!(run(""), bad(1));
    assert_eq!(run(&header(&[])), "");
    // One byte short of a whole header: its last line is unfit.
    let whole = header(&[]);
    assert_eq!(run(&whole[..whole.len() - 1]), bad(33));
    // A trap cut after each of its lines names the next.
    let text = example();
    let mut ends: Vec<usize> = text.match_indices('\n').map(|m| m.0 + 1).collect();
    ends.pop();
    for (count, end) in ends.iter().enumerate() {
        let want = if count + 1 == 33 { String::new() } else { bad(count as u64 + 2) };
        assert_eq!(run(&text[..*end]), want);
    }
}

#[test]
fn unfit_lines_name_themselves() {
    let good = example();
    for (from, to) in [
        ("stval=", "Stval="),
        ("stval=", "stval:"),
        ("stval=0", "stval="),
        ("stval=0", "stval=00"),
        ("stval=0", "stval=A"),
        ("stval=0", "stval=g"),
        ("stval=", " stval="),
        ("stval=", "\nstval="),
    ] {
        assert_eq!(run(&good.replacen(from, to, 1)), bad(35), "{from:?} {to:?}");
    }
    assert_eq!(run(&good.replacen('\n', "\r\n", 1)), bad(1));
}

#[test]
fn a_fetch_reads_word_and_more() {
    let start = header(&[(0, 0x10)]) + &trap([22, 0, 0, 0]);
    // csrrs x10, stimecmp, x0, with high bits that a fetch ignores.
    let word = 0xffff_0000_14d0_2573;
    assert_eq!(run(&(start.clone() + &reply(word, 0))), four(0, 0x14, 0, 0));
    for more in 1..=3 {
        assert_eq!(run(&(start.clone() + &reply(9, more))), four(0, 0, 0, 0));
    }
    assert_eq!(run(&(start.clone() + &reply(9, 4))), four(8, 0x10, 0, 0));
    assert_eq!(run(&(start.clone() + &reply(9, 5))), four(0x106, 0x10, 0, 0));
    assert_eq!(run(&(start.clone() + &reply(9, 6))), bad(39));
    assert_eq!(run(&start), bad(38));
}

#[test]
fn a_load_prints_after_its_completion() {
    // lw x10
    let start = header(&[]) + &trap([21, 0, 0x400, 0x2503]);
    let text = start.clone() + &reply(0x8000_0000, 99);
    assert_eq!(run(&text), four(9, 4, 0xffff_ffff_8000_0000, 0));
    assert_eq!(run(&start), bad(38));
    assert_eq!(run(&(start + "word=0000000000000000\n")), bad(39));
}

/// 02, W2: a fetched c.lw asks for its completion, as lw does.
#[test]
fn a_compressed_load_takes_its_completion() {
    // c.lw x10, with high bits that a fetch ignores.
    let start = header(&[]) + &trap([21, 0, 0x400, 0]) + &reply(0xffff_0000_ffff_4008, 0);
    let text = start.clone() + &reply(0x8000_0000, 99);
    assert_eq!(run(&text), four(9, 2, 0xffff_ffff_8000_0000, 0));
    assert_eq!(run(&start), bad(40));
    // Under 23 it is no load, and a store takes none.
    let start = header(&[(x(10), 5)]) + &trap([23, 0, 0x400, 0]);
    assert_eq!(run(&(start.clone() + &reply(0x4008, 0))), four(8, 0, 5, 0));
    assert_eq!(run(&(start + &reply(0xc008, 0))), four(10, 2, 5, 0));
    // c.lwsp into x0 is reserved.
    let start = header(&[]) + &trap([21, 0, 0x400, 0]);
    assert_eq!(run(&(start + &reply(0x4002, 0))), four(8, 0, 0, 0));
}

#[test]
fn errors_and_exits_go_on() {
    let text = header(&[(x(17), 8)])
        + &trap([10, 0, 0, 0])
        + &trap([14, 0, 0, 0])
        + &trap([(1 << 63) + 9, 0, 0, 0])
        + "junk";
    let want = four(7, 0, 0, 0) + &four(0x104, 0, 0, 0) + &four(1, 0, 0, 0) + &bad(46);
    assert_eq!(run(&text), want);
}

#[test]
fn console_write_takes_two_answers() {
    let start = header(&[(x(10), 5), (x(16), 0), (x(17), 0x4442_434e)]) + &trap([10, 0, 0, 0]);
    let text = start.clone() + &reply(5, 1) + &reply(3, 4);
    assert_eq!(run(&text), four(0, 4, 3, 4));
    let text = start + &reply(4, 1);
    assert_eq!(run(&text), four(0, 4, u64::MAX, 0));
}
