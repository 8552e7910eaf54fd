//! The faults that a file may have, each with its repair: a file that is refused has the fault alone if it is accepted
//! when repaired. Bytes are taken as the characters with their numbers.

use outside::definition::edge_files::read;

/// A number of a line: its name, the line's first word, and which word it is.
const FIELDS: [(&str, &str, usize); 4] =
    [("n", "p", 2), ("m", "p", 3), ("the first point", "e", 1), ("the second point", "e", 2)];

/// More digits than any number has that fits into 64 bits.
const DIGITS: usize = 21;

fn text(file: &[u8]) -> String {
    file.iter().map(|&byte| byte as char).collect()
}

fn bytes(text: &str) -> Vec<u8> {
    text.chars().map(|character| character as u8).collect()
}

/// The lines without their ends, changed; None leaves a line out.
fn each_line(file: &str, change: impl Fn(&str) -> Option<String>) -> String {
    let end = |line: &str| if line.ends_with('\n') { "\n" } else { "" };
    let changed =
        |line: &str| change(line.strip_suffix('\n').unwrap_or(line)).map(|new| new + end(line));
    file.split_inclusive('\n').filter_map(changed).collect()
}

/// One word of each line that begins with this word, changed.
fn each_word(file: &str, first: &str, place: usize, change: impl Fn(&str) -> String) -> String {
    each_line(file, |line| {
        let mut words: Vec<String> = line.split(' ').map(str::to_string).collect();
        if words[0] == first && place < words.len() {
            words[place] = change(&words[place]);
        }
        Some(words.join(" "))
    })
}

/// The words of a line, no more than the form has.
fn first_words(line: &str) -> String {
    let most = if line.starts_with('p') { 4 } else { 3 };
    line.split(' ').take(most).collect::<Vec<&str>>().join(" ")
}

/// The number of its lowest bits, where the word is a number.
fn lowest_bits(word: &str, bits: u32) -> String {
    word.parse::<u128>().map_or(word.to_string(), |number| (number % (1 << bits)).to_string())
}

fn without_leading_zeros(word: &str) -> String {
    let rest = word.trim_start_matches('0');
    if rest.is_empty() { "0" } else { rest }.to_string()
}

fn how_many_links(file: &str) -> u128 {
    file.lines().filter(|line| line.starts_with("e ")).count() as u128
}

/// The right number of links, in place of one that is too small or one that is too large.
fn counted(file: &str, too_small: bool) -> String {
    let count = how_many_links(file);
    each_word(file, "p", 3, |word| match word.parse::<u128>() {
        Ok(m) if (m < count) == too_small => count.to_string(),
        _ => word.to_string(),
    })
}

/// A line end behind the last line, if it begins with this letter.
fn ended(file: &str, letter: char) -> String {
    let last = file.split_inclusive('\n').next_back().unwrap_or("");
    format!("{file}{}", if last.starts_with(letter) { "\n" } else { "" })
}

fn p_line_first(file: &str) -> String {
    let (first, others): (Vec<&str>, Vec<&str>) =
        file.split_inclusive('\n').partition(|line| line.starts_with('p'));
    [first, others].concat().concat()
}

fn first_p_line_only(file: &str) -> String {
    let mut lines: Vec<&str> = file.split_inclusive('\n').collect();
    let first = lines.iter().position(|line| line.starts_with('p'));
    let mut place = 0;
    lines.retain(|line| {
        place += 1;
        !line.starts_with('p') || Some(place - 1) == first
    });
    lines.concat()
}

fn with_more_points(file: &str) -> String {
    each_word(file, "p", 2, |_| "64".to_string())
}

/// A point 0 as a point that there is.
fn with_point(file: &str, place: usize) -> String {
    let point = |word: &str| if word == "0" { "64" } else { word }.to_string();
    with_more_points(&each_word(file, "e", place, point))
}

/// The faults of the lines as a whole, and of words.
fn of_lines(file: &str) -> Vec<(&'static str, String)> {
    let known = |line: &str| line.starts_with(['c', 'p', 'e']).then(|| line.to_string());
    vec![
        ("carriage returns", file.replace('\r', "")),
        ("line ends that are carriage returns", file.replace('\r', "\n")),
        ("a tab", file.replace('\t', " ")),
        ("two spaces", file.replace("  ", " ")),
        ("a space at the front", each_line(file, |line| Some(line.trim_start_matches(' ').into()))),
        ("a space at the end", each_line(file, |line| Some(line.trim_end_matches(' ').into()))),
        ("an empty line", each_line(file, |line| (!line.is_empty()).then(|| line.into()))),
        ("another line", each_line(file, known)),
        ("no end of a comment", ended(file, 'c')),
        ("no end of the p line", ended(file, 'p')),
        ("no end of a link", ended(file, 'e')),
        ("no p line", format!("p edge 64 {}\n{file}", how_many_links(file))),
        ("a link before the p line", p_line_first(file)),
        ("two p lines", first_p_line_only(file)),
        ("another word", each_word(file, "p", 1, |_| "edge".to_string())),
        ("a word too many", each_line(file, |line| Some(first_words(line)))),
        ("no number of links", file.replace("p edge 2\n", "p edge 2 0\n")),
        ("a sign", file.replace(['+', '-'], "")),
        ("m too small", counted(file, true)),
        ("m too large", counted(file, false)),
        ("a point above n", with_more_points(file)),
        ("a first point 0", with_point(file, 1)),
        ("a second point 0", with_point(file, 2)),
    ]
}

/// The faults of numbers, in each field: a leading zero; too large, with the lowest bits of a right number; too large
/// for every machine word.
fn of_numbers(file: &str) -> Vec<(String, String)> {
    let mut repaired = Vec::new();
    for (name, first, place) in FIELDS {
        let zeros = each_word(file, first, place, without_leading_zeros);
        repaired.push((format!("a leading zero of {name}"), zeros));
        for bits in [8, 32, 64] {
            let lowest = each_word(file, first, place, |word| lowest_bits(word, bits));
            repaired.push((format!("{name} above {bits} bits"), lowest));
        }
        let right = match name {
            "m" => how_many_links(file).to_string(),
            "the first point" => "1".to_string(),
            _ => "2".to_string(),
        };
        let short = |word: &str| if word.len() < DIGITS { word } else { &right }.to_string();
        repaired.push((format!("{name} of many digits"), each_word(file, first, place, short)));
    }
    repaired
}

fn repaired(file: &str) -> Vec<(String, String)> {
    let lines = of_lines(file).into_iter().map(|(name, text)| (name.to_string(), text));
    lines.chain(of_numbers(file)).collect()
}

/// The names of all faults.
pub fn names() -> Vec<String> {
    let alone = ["an empty file", "comments alone"].map(str::to_string);
    repaired("").into_iter().map(|(name, _)| name).chain(alone).collect()
}

/// The faults that this file, which is refused, has alone.
pub fn faults(file: &[u8]) -> Vec<String> {
    let whole = text(file);
    let accepted = |new: &str| new != whole && read(&bytes(new)).is_ok();
    let mut found: Vec<String> = repaired(&whole)
        .into_iter()
        .filter(|(_, text)| accepted(text))
        .map(|(name, _)| name)
        .collect();
    if file.is_empty() {
        found.push("an empty file".to_string());
    } else if whole.ends_with('\n') && whole.lines().all(|line| line.starts_with('c')) {
        found.push("comments alone".to_string());
    }
    found
}
