//! Sheets about as long as the longest, and inputs that are longer than any sheet.

use super::{all_linked, fields, longer, of, printed, replaced, wider, Sheet};
use crate::definition::sheet::{field, line, LONGEST};

/// All links between 64 points, and a walk over all of them.
pub fn longest() -> Sheet {
    of(&all_linked(64), &(0..64).collect::<Vec<u8>>())
}

/// The longest sheet, and others about its length.
pub fn around_the_longest() -> Vec<Sheet> {
    let longest = longest();
    let mut sheets = longer(&longest);
    sheets.push([longest.clone(), b" \n".repeat(20_480)].concat());
    // More than a pipe holds.
    sheets.push([longest.clone(), line(&[0]).repeat(40_000)].concat());
    for at in [0, 11, 12, 20, 9_000, LONGEST - 6, LONGEST - 5, LONGEST - 2, LONGEST - 1] {
        sheets.push(replaced(&longest, at, 1, b"x"));
        sheets.push(replaced(&longest, at, 1, b""));
        sheets.push(longest[..at].to_vec());
    }
    // Of line 1, and of the first and the last lines behind it.
    let fields = fields(&longest);
    let some = (0..6).chain(fields.len() - 66..fields.len() - 62).chain([fields.len() - 1]);
    for (at, own) in some.map(|i| fields[i]) {
        for number in [0, own + 1, own + 256, 65, 2015, 9999] {
            sheets.push(replaced(&longest, at, 4, &field(number)));
        }
    }
    // What line 1 says comes before the length.
    for first in [[65, 2016, 64], [64, 2016, 65], [65, 2016, 66], [64, 2017, 64], [64, 9999, 64]] {
        let mut sheet = replaced(&longest, 0, 13, &line(&first));
        sheets.push(sheet.clone());
        sheet.resize(LONGEST + 1, b'\n');
        sheets.push(sheet.clone());
        sheet.resize(LONGEST + 40_960, b'\n');
        sheets.push(sheet);
    }
    sheets.push(longest);
    sheets
}

/// The start of a sheet, right or wrong, then the same bytes again and again: up to the length of the longest sheet,
/// one and two bytes beyond it, and far beyond what the program reads.
pub fn filled_up() -> Vec<Sheet> {
    let more =
        [b" ".to_vec(), b"\n".to_vec(), b"x".to_vec(), line(&[0]), line(&[0, 1]), line(&[62, 63])];
    let mut sheets = Vec::new();
    for start in starts() {
        let lengths = [LONGEST, LONGEST + 1, LONGEST + 2, LONGEST + 40_960];
        for length in lengths.into_iter().filter(|&length| length > start.len()) {
            for more in &more {
                let bytes = start.iter().chain(more.iter().cycle());
                sheets.push(bytes.take(length).copied().collect());
            }
        }
    }
    sheets
}

/// Nothing, first lines, sound sheets, and the longest with a byte changed, with a byte left out, or cut short.
fn starts() -> Vec<Sheet> {
    let longest = longest();
    let mut starts = vec![Vec::new(), printed(), wider(), longest.clone(), line(&[4, 3])];
    let firsts = [[0, 0, 0], [1, 0, 1], [4, 0, 4], [4, 3, 4], [64, 0, 64], [64, 9999, 64]];
    let refused = [[65, 2016, 64], [64, 2016, 65]];
    starts.extend(firsts.iter().chain(&refused).map(|numbers| line(numbers)));
    let places = LONGEST - 64 * 5;
    for at in [12, 13, 9_000, places - 1, places, places + 4, LONGEST - 5, LONGEST - 2, LONGEST - 1]
    {
        starts.push(replaced(&longest, at, 1, b"x"));
        starts.push(replaced(&longest, at, 1, b""));
        starts.push(longest[..at].to_vec());
    }
    starts
}

/// All links between 64 points, or all but the last, then lines that look like links; m is right or wrong.
pub fn too_many_links() -> Vec<Sheet> {
    let longest = longest();
    let (links, places) = longest[13..].split_at(2016 * 9);
    let more = [(62, 63), (63, 63), (63, 64), (64, 65), (0, 1), (1, 0), (9998, 9999)];
    let mut sheets = Vec::new();
    for m in [2015, 2016, 2017, 9999] {
        let first = line(&[64, m, 64]);
        for (u, v) in more {
            for count in [1, 36, 9999 - 2016] {
                let more = line(&[u, v]).repeat(count);
                sheets.push([&first, links, &more].concat());
                sheets.push([&first, links, &more, places].concat());
                sheets.push([&first, &links[..2015 * 9], &more, places].concat());
            }
        }
    }
    // Links that ascend over more points than n.
    for n in [0, 2, 63, 64] {
        let ascending = (0..142).flat_map(|u| (u + 1..142).flat_map(move |v| line(&[u, v])));
        sheets.push(line(&[n, 9999, 0]).into_iter().chain(ascending).collect());
    }
    sheets
}
