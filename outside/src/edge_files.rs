//! DIMACS edge files to try, sound or damaged. What does not depend on the lines' form is shared with `sheets`.

use crate::definition::edge_files::{text, LONGEST_INPUT, MOST};
use crate::definition::Mark;
use crate::graphs;
use crate::random::Random;
use crate::sheets::{each_byte_changed_to, lines, replaced};

pub type File = Vec<u8>;

/// What a byte is changed to.
const BYTES: [u8; 17] = *b"\n\r\t 01295-+cepx\0\xff";

/// Numbers that no machine word of 8, 32 or 64 bits holds, and others that are near the bounds.
const NUMBERS: [&str; 17] = [
    "0",
    "1",
    "2",
    "9",
    "10",
    "63",
    "64",
    "65",
    "256",
    "257",
    "4294967296",
    "4294967297",
    "18446744073709551615",
    "18446744073709551616",
    "18446744073709551617",
    "340282366920938463463374607431768211457",
    "1000000000000000000000000000000",
];

/// Comments at the front, between the links and at the end; links that come again, either way round; points of two
/// digits.
pub fn sound() -> File {
    let head = "c a plan\nc\np edge 12 6\n";
    let links = "e 1 2\nc p edge 1 0\ne 12 3\ne 2 1\ne 1 2\nce 1 1\ne 3 12\ne 11 10\nc\n";
    [head, links].concat().into_bytes()
}

// ---- One damage, everywhere ----

pub fn each_byte_changed(file: &[u8]) -> Vec<File> {
    each_byte_changed_to(file, &BYTES)
}

/// Where each number of a line that is not a comment begins, and its digits.
fn numbers(file: &[u8]) -> Vec<(usize, String)> {
    let mut found = Vec::new();
    let mut at = 0;
    for line in lines(file) {
        let mut begin = at;
        for word in line.split(|byte| b" \n".contains(byte)) {
            let decimal = !word.is_empty() && word.iter().all(|byte| byte.is_ascii_digit());
            if decimal && !line.starts_with(b"c") {
                found.push((begin, String::from_utf8_lossy(word).into_owned()));
            }
            begin += word.len() + 1;
        }
        at += line.len();
    }
    found
}

/// The file with other words in place of each number.
fn each_replaced(file: &[u8], words: impl Fn(&str) -> Vec<String>) -> Vec<File> {
    let numbers = numbers(file);
    let replace = |(at, own): &(usize, String)| {
        let others = words(own).into_iter().filter(|word| word != own);
        others.map(|word| replaced(file, *at, own.len(), word.as_bytes())).collect::<Vec<File>>()
    };
    numbers.iter().flat_map(replace).collect()
}

/// Other numbers in each field, also some whose lowest bits alone are those of the right one.
pub fn each_number_changed(file: &[u8]) -> Vec<File> {
    each_replaced(file, |own| {
        let value: u128 = own.parse().expect("a sound file has small numbers");
        let near = [value + 1, value.saturating_sub(1)];
        let wrapped = [8, 16, 32, 64, 100].map(|bits| value + (1 << bits));
        let others = near.into_iter().chain(wrapped).map(|number| number.to_string());
        others.chain(NUMBERS.map(str::to_string)).collect()
    })
}

/// Each number as it must not be.
pub fn each_number_misshapen(file: &[u8]) -> Vec<File> {
    each_replaced(file, |own| {
        let forms =
            ["0", "00", "+", "-", " ", "\t", "0x", "_"].map(|front| format!("{front}{own}"));
        let behind =
            [" ", "\t", "\r", ".", ".0", "e0", "x", "\0", " 1"].map(|end| format!("{own}{end}"));
        let others = ["", "x", "/", ":", "\u{663}", "-0"].map(str::to_string);
        forms.into_iter().chain(behind).chain(others).collect()
    })
}

/// What may stand in place of a line, before it or behind it.
const LINES: [&str; 11] =
    ["", "\n", " \n", "c\n", "c", "x\n", "e 1 2\n", "e 2 2\n", "p edge 12 6\n", "p\n", "e\n"];

/// Other line ends, other lines, and the line repeated, shorter or longer by a byte or a word.
fn other_lines(line: &[u8]) -> Vec<Vec<u8>> {
    let text = &line[..line.len() - 1];
    let ends = [&b"\r\n"[..], b"\r", b"\n\n", b"\n\r", b" \n", b"", b"\0", b" 1\n", b"\t\n"];
    let short = text.iter().rposition(|&byte| byte == b' ').unwrap_or(0);
    let mut others: Vec<Vec<u8>> = ends.iter().map(|end| [text, end].concat()).collect();
    for new in LINES.map(str::as_bytes) {
        others.extend([new.to_vec(), [line, new].concat(), [new, line].concat()]);
    }
    others.extend([line.repeat(2), line[1..].to_vec(), [b" ", line].concat()]);
    others.push([&text[..short], b"\n"].concat());
    others
}

/// One line damaged, two lines swapped, or all line ends changed.
pub fn each_line_damaged(file: &[u8]) -> Vec<File> {
    let lines = lines(file);
    let mut files = Vec::new();
    for (i, line) in lines.iter().enumerate() {
        for other in other_lines(line) {
            let mut damaged = lines.clone();
            damaged[i] = other;
            files.push(damaged.concat());
        }
        for j in 0..i {
            let mut damaged = lines.clone();
            damaged.swap(i, j);
            files.push(damaged.concat());
        }
    }
    for end in [&b"\r\n"[..], b"\r", b" \n"] {
        let ended = |line: &Vec<u8>| [&line[..line.len() - 1], end].concat();
        files.push(lines.iter().flat_map(ended).collect());
    }
    files
}

// ---- Which refusal comes first ----

/// All choices of a p line and of two lines behind it, right and wrong.
pub fn several_faults() -> Vec<File> {
    let firsts =
        ["p edge 3 2", "p edge 3 1", "p edge 65 2", "p edge 03 2", "p edge 65 02", "e 1 2", "c"];
    let others =
        ["e 1 2", "e 2 2", "e 1 4", "e 4 4", "e 0 0", "e 1 02", "p edge 3 2", "c", "x", ""];
    let lines = |first: &str, second: &str, third: &str, end: &str| {
        format!("{first}\n{second}\n{third}{end}").into_bytes()
    };
    let mut files = Vec::new();
    for first in firsts {
        for second in others {
            for third in others {
                files.extend(["", "\n"].map(|end| lines(first, second, third, end)));
            }
        }
    }
    files
}

// ---- Long files ----

/// Filled up with a comment at the end, to so many bytes.
fn filled_up(file: &[u8], length: usize) -> File {
    let mut filled = file.to_vec();
    filled.push(b'c');
    filled.resize(length - 1, b'x');
    filled.push(b'\n');
    filled
}

/// The plan of 64 points with every link.
fn complete() -> File {
    text(&(0..MOST).map(|u| !(1 << u)).collect::<Vec<u64>>())
}

/// The longest file that is accepted, one byte more, and others about as long or longer than a pipe holds. Some are
/// refused for what stands at their front, some for what stands at their end.
pub fn long() -> Vec<File> {
    let complete = complete();
    let many = 100_000;
    let repeated = [format!("p edge 3 {many}\n").into_bytes(), b"e 3 2\n".repeat(many)].concat();
    let own = [format!("p edge 3 {many}\n").into_bytes(), b"e 3 3\n".repeat(many)].concat();
    let mut files = vec![complete.clone(), complete[..complete.len() - 1].to_vec()];
    for file in [&complete, &sound(), &b"p edge 65 0\n".to_vec(), &b"x\n".to_vec(), &repeated, &own]
    {
        for length in [LONGEST_INPUT - 1, LONGEST_INPUT, LONGEST_INPUT + 1, LONGEST_INPUT + 40_000]
        {
            let filled = filled_up(file, length);
            files.push(filled[..length - 1].to_vec());
            files.push(filled);
        }
    }
    files.extend([repeated.clone(), own, [&repeated[..], b"e 1 2\n"].concat()]);
    files
}

// ---- Random files ----

/// A file and the rows that it gives: the links in a random order, either way round, some of them again, and comments
/// anywhere.
pub fn random_file(random: &mut Random) -> (File, Vec<u64>) {
    let n = if random.percent(85) { random.below(13) } else { random.between(13, MOST) };
    let plan = graphs::random_plan(random, Mark::TwoWay, n);
    let mut links = graphs::links(&plan);
    for _ in 0..if links.is_empty() { 0 } else { random.below(5) } {
        links.push(random.pick(&links));
    }
    let order = random.wide_permutation(links.len());
    let mut file = comments(random);
    file.extend(format!("p edge {n} {}\n", links.len()).into_bytes());
    for (u, v) in order.into_iter().map(|i| links[i as usize]) {
        let (first, second) = if random.percent(50) { (u, v) } else { (v, u) };
        file.extend(comments(random));
        file.extend(format!("e {} {}\n", first + 1, second + 1).into_bytes());
    }
    file.extend(comments(random));
    let row = |bytes: &[u8]| u64::from_le_bytes(bytes.try_into().expect("eight bytes a row"));
    (file, plan.chunks_exact(8).map(row).collect())
}

/// None, mostly, or some of any bytes.
fn comments(random: &mut Random) -> Vec<u8> {
    let mut lines = Vec::new();
    while random.percent(25) {
        lines.push(b'c');
        let length = random.below(8);
        lines.extend((0..length).map(|_| random.byte()).filter(|&byte| byte != 10));
        lines.push(10);
    }
    lines
}

/// One to three damages at random: a byte, a number, two lines swapped, a line repeated or left out, a link in its place
/// that a point has with itself.
pub fn damaged(random: &mut Random, file: &[u8]) -> File {
    let mut damaged = file.to_vec();
    for _ in 0..random.pick(&[1, 1, 2, 3]) {
        let mut lines = lines(&damaged);
        if lines.is_empty() {
            break;
        }
        let (i, j) = (random.below(lines.len()), random.below(lines.len()));
        match random.below(7) {
            0 => {
                let at = random.below(damaged.len());
                damaged[at] = random.pick(&BYTES);
                continue;
            }
            1 | 2 => {
                let numbers = numbers(&damaged);
                if !numbers.is_empty() {
                    let (at, own) = &numbers[random.below(numbers.len())];
                    let other = random.pick(&NUMBERS);
                    damaged = replaced(&damaged, *at, own.len(), other.as_bytes());
                }
                continue;
            }
            3 => lines.swap(i, j),
            4 => lines[i] = lines[j].clone(),
            5 => {
                let point = random.between(1, 3);
                lines[i] = format!("e {point} {point}\n").into_bytes();
            }
            _ => drop(lines.remove(i)),
        }
        damaged = lines.concat();
    }
    damaged
}
