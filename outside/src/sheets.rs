//! Sheets to try, sound or damaged; the long ones are in `long`.

use crate::barred_sets;
use crate::calls::{random_judge, JudgeCall};
use crate::definition::sheet::{field, line, write};
use crate::definition::{Graph, Mark, KINDS};
use crate::graphs;
use crate::orderings;
use crate::random::Random;

pub mod long;

pub type Sheet = Vec<u8>;

/// What a byte is changed to, or what stands behind the end.
const BYTES: [u8; 8] = [b' ', b'0', b'1', b'9', b'\n', b'x', 0, 255];

/// The sheet that 01 prints.
pub fn printed() -> Sheet {
    write(&[(0, 1), (0, 2), (1, 3)], &[0, 1, 2, 3], 4)
}

/// A small one with numbers of two digits.
pub fn wider() -> Sheet {
    write(&[(0, 10), (1, 2), (2, 11), (9, 10)], &[10, 0, 9, 11], 12)
}

fn of(plan: &[u8], walk: &[u8]) -> Sheet {
    let walk: Vec<usize> = walk.iter().map(|&v| v as usize).collect();
    write(&graphs::links(plan), &walk, plan.len() / 8)
}

fn all_linked(n: usize) -> Vec<u8> {
    let links: Vec<(usize, usize)> = (0..n).flat_map(|v| (0..v).map(move |u| (u, v))).collect();
    graphs::plan(n, &links)
}

// ---- One damage, everywhere ----

/// The sheet with `new` in place of `length` bytes from `at`.
pub(crate) fn replaced(sheet: &[u8], at: usize, length: usize, new: &[u8]) -> Sheet {
    [&sheet[..at], new, &sheet[at + length..]].concat()
}

pub(crate) fn lines(sheet: &[u8]) -> Vec<Sheet> {
    sheet.split_inclusive(|&byte| byte == 10).map(|line| line.to_vec()).collect()
}

/// Where each field begins, and its number.
fn fields(sheet: &[u8]) -> Vec<(usize, usize)> {
    let mut found = Vec::new();
    let mut at = 0;
    for line in lines(sheet) {
        for columns in line[..line.len() - 1].chunks(4) {
            let text = std::str::from_utf8(columns).expect("a sound sheet is text");
            found.push((at, text.trim().parse().expect("a sound sheet has numbers")));
            at += 4;
        }
        at += 1;
    }
    found
}

pub fn each_byte_changed(sheet: &[u8]) -> Vec<Sheet> {
    each_byte_changed_to(sheet, &BYTES)
}

/// Each byte changed to each of these.
pub fn each_byte_changed_to(sheet: &[u8], bytes: &[u8]) -> Vec<Sheet> {
    let others = |at: usize| bytes.iter().filter(move |&&byte| byte != sheet[at]);
    let changed = |at| others(at).map(move |&byte| replaced(sheet, at, 1, &[byte]));
    (0..sheet.len()).flat_map(changed).collect()
}

/// Cut short at each byte; the empty sheet is one of them.
pub fn each_start(sheet: &[u8]) -> Vec<Sheet> {
    (0..sheet.len()).map(|end| sheet[..end].to_vec()).collect()
}

/// One byte left out, or put in between.
pub fn each_byte_moved(sheet: &[u8]) -> Vec<Sheet> {
    let without = (0..sheet.len()).map(|at| replaced(sheet, at, 1, &[]));
    let with = (0..sheet.len())
        .flat_map(|at| [b' ', b'\n'].into_iter().map(move |byte| replaced(sheet, at, 0, &[byte])));
    without.chain(with).collect()
}

/// Other numbers in each field, also some whose lowest byte alone is the right one.
pub fn each_number_changed(sheet: &[u8]) -> Vec<Sheet> {
    let mut sheets = Vec::new();
    for (at, own) in fields(sheet) {
        let near = [own + 1, own.saturating_sub(1), own + 256, own + 512, own + 1024];
        let far = [0, 4, 12, 63, 64, 65, 255, 256, 257, 260, 999, 1000, 9999];
        let numbers = near.into_iter().chain(far).filter(|&number| number != own);
        sheets.extend(numbers.map(|number| replaced(sheet, at, 4, &field(number))));
    }
    sheets
}

/// Each field as it must not be.
pub fn each_field_misshapen(sheet: &[u8]) -> Vec<Sheet> {
    let mut sheets = Vec::new();
    for (at, own) in fields(sheet) {
        let forms = [
            format!("{own:04}"),
            format!(" {own:03}"),
            format!("{:>4}", format!("0{own}")),
            format!("{own:<4}"),
            format!("{own:<3} "),
            format!("{own:<2}  "),
            format!("{:>4}", format!("+{own}")),
            format!("{:>4}", format!("-{own}")),
            format!("{own:>3}."),
            format!("{own:\t>4}"),
            format!("{own:\0>4}"),
            format!("{own} {own}"),
            "    ".to_string(),
            "   a".to_string(),
            "   :".to_string(),
            "   /".to_string(),
        ];
        let misshapen = forms.iter().filter(|form| form.as_bytes() != field(own));
        sheets.extend(misshapen.map(|form| replaced(sheet, at, 4, form.as_bytes())));
    }
    sheets
}

/// Other line ends, and lines left out, repeated, swapped, shorter or longer by a field.
pub fn each_line_damaged(sheet: &[u8]) -> Vec<Sheet> {
    let lines = lines(sheet);
    let mut sheets = Vec::new();
    for end in [&b"\r\n"[..], b"\r", b"\n\n", b"\n\r", b" \n", b"", b"\0"] {
        let ended = |line: &Sheet| [&line[..line.len() - 1], end].concat();
        sheets.push(lines.iter().flat_map(ended).collect());
        for i in 0..lines.len() {
            let mut damaged = lines.clone();
            damaged[i] = ended(&lines[i]);
            sheets.push(damaged.concat());
        }
    }
    for i in 0..lines.len() {
        let line = &lines[i];
        let news = [
            Vec::new(),
            line.repeat(2),
            line[4..].to_vec(),
            [&line[..4], line.as_slice()].concat(),
        ];
        for new in news {
            let mut damaged = lines.clone();
            damaged[i] = new;
            sheets.push(damaged.concat());
        }
        for j in 0..i {
            let mut damaged = lines.clone();
            damaged.swap(i, j);
            sheets.push(damaged.concat());
        }
    }
    sheets
}

/// Something behind the end.
pub fn longer(sheet: &[u8]) -> Vec<Sheet> {
    let mut more: Vec<Sheet> = BYTES.iter().map(|&byte| vec![byte]).collect();
    more.extend([line(&[]), line(&[0]), line(&[3]), line(&[2, 3]), b"   3".to_vec()]);
    more.push(sheet.to_vec());
    more.push(vec![b' '; 40_960]);
    more.iter().map(|more| [sheet, more].concat()).collect()
}

// ---- Which refusal comes first ----

const LINKS: [&[(usize, usize)]; 9] = [
    &[(0, 1), (0, 2), (1, 3)],
    &[(0, 2), (0, 1), (1, 3)],
    &[(0, 3), (1, 2), (0, 1)],
    &[(0, 1), (0, 1), (1, 3)],
    &[(1, 0), (1, 2), (1, 3)],
    &[(0, 1), (2, 2), (2, 3)],
    &[(0, 1), (0, 4), (1, 3)],
    &[(0, 1), (0, 258), (1, 3)],
    &[(0, 1), (0, 2), (256, 259)],
];

const WALKS: [&[usize]; 8] = [
    &[0, 1, 2, 3],
    &[0, 1, 2, 4],
    &[4, 2, 1, 0],
    &[0, 1, 2, 256],
    &[0, 1, 0, 2],
    &[3, 3, 3, 3],
    &[1, 1, 9999, 0],
    &[9999, 9999, 9999, 9999],
];

/// All pairs of links and walks, a sound one and damaged ones; then also with a wrong line 1 or with more behind.
pub fn several_faults() -> Vec<Sheet> {
    let mut sheets = Vec::new();
    for links in LINKS {
        for walk in WALKS {
            let sheet = write(links, walk, 4);
            sheets.push([&sheet[..], b"\n"].concat());
            sheets.push(sheet);
        }
    }
    for links in [LINKS[0], LINKS[3]] {
        for walk in [WALKS[0], WALKS[1], WALKS[5]] {
            let sheet = write(links, walk, 4);
            for first in [[65, 3, 4], [65, 3, 66], [4, 3, 5], [3, 3, 4], [260, 3, 4], [4, 3, 260]] {
                sheets.push(replaced(&sheet, 0, 13, &line(&first)));
                sheets.push(replaced(&sheet, 0, 13, &[&line(&first)[..12], b"x"].concat()));
            }
        }
    }
    sheets
}

// ---- All sizes, and random ones ----

/// For each n one sound sheet, one without a walk, one with k above n, one with n as a point, one with a point twice.
pub fn of_each_size(random: &mut Random) -> Vec<Sheet> {
    let mut sheets = Vec::new();
    for n in 0..=64 {
        let plan = graphs::random_plan(random, Mark::TwoWay, n);
        let kind = random.pick(&KINDS);
        let walk = orderings::random_walk(random, kind, &Graph::from_plan(&plan));
        sheets.push(of(&plan, &walk));
        sheets.push(of(&plan, &[]));
        let points: Vec<u8> = (0..=n as u8).collect();
        sheets.push(of(&plan, &points));
        sheets.push(of(&all_linked(n), &points[n.min(1)..]));
        let twice = [&points[..n.saturating_sub(1)], &points[..n.min(1)]].concat();
        sheets.push(of(&all_linked(n), &twice));
    }
    for n in [65, 66, 99, 100, 128, 255, 256, 257, 260, 320, 1000, 9999] {
        sheets.push(line(&[n, 0, 0]));
        sheets.push(line(&[n, 0, n]));
        sheets.push(line(&[0, 0, n]));
        sheets.push(line(&[0, n, 0]));
    }
    sheets
}

/// A sound sheet, mostly a small one.
pub fn random_sheet(random: &mut Random) -> Sheet {
    let JudgeCall { plan, walk, .. } = random_judge(random, Mark::TwoWay, barred_sets::none);
    of(&plan, &walk)
}

/// With many points: about three links a point, or half of all; a run of some kind, or two of its points swapped.
pub fn random_large(random: &mut Random) -> Sheet {
    let n = random.between(50, 64);
    let plan = if random.percent(50) {
        graphs::sparse_connected(random, n)
    } else {
        graphs::dense_connected(random, n)
    };
    let kind = random.pick(&KINDS);
    let mut walk = orderings::run(random, kind, &Graph::from_plan(&plan), n);
    if random.percent(50) {
        walk.swap(random.below(n), random.below(n));
    }
    of(&plan, &walk)
}

/// One to three damages at random: a byte, a number, two lines swapped, a line repeated or left out.
pub fn damaged(random: &mut Random, sheet: &[u8]) -> Sheet {
    let fields = fields(sheet);
    let mut damaged = sheet.to_vec();
    for _ in 0..random.pick(&[1, 1, 2, 3]) {
        let mut lines = lines(&damaged);
        if lines.is_empty() {
            break;
        }
        let (i, any) = (random.below(lines.len()), random.below(lines.len()));
        let j = random.pick(&[any, i.saturating_sub(1)]);
        match random.below(6) {
            0 => {
                let at = random.below(damaged.len());
                damaged[at] = random.byte();
                continue;
            }
            1 | 2 => {
                let (at, own) = random.pick(&fields);
                let number = random.pick(&[own + 1, own + 256, own / 2, 64]);
                if at + 4 <= damaged.len() {
                    damaged = replaced(&damaged, at, 4, &field(number));
                }
                continue;
            }
            3 => lines.swap(i, j),
            4 => lines[i] = lines[j].clone(),
            _ => drop(lines.remove(i)),
        }
        damaged = lines.concat();
    }
    damaged
}
