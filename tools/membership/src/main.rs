//! Asks seven tests of the Rust crates at every scalar value and prints the members of each as ranges: what the
//! program of the same name in crates/membership has to print.

use unicode_properties::UnicodeEmoji;
use unicode_xid::UnicodeXID;

type Test = fn(char) -> bool;

const TESTS: [(&str, Test); 7] = [
    ("is_xid_start", UnicodeXID::is_xid_start),
    ("is_xid_continue", UnicodeXID::is_xid_continue),
    ("is_emoji", UnicodeEmoji::is_emoji_char),
    ("is_white_space", char::is_whitespace),
    ("is_whitespace", oq3_lexer::is_whitespace),
    ("is_id_start", oq3_lexer::is_id_start),
    ("is_id_continue", oq3_lexer::is_id_continue),
];

/// The answers of one test.
#[derive(Default)]
struct Members {
    asked: u32,
    members: u32,
    ranges: Vec<(u32, u32)>,
}

impl Members {
    fn of(test: Test) -> Members {
        let mut found = Members::default();
        for c in '\0'..=char::MAX {
            found.asked += 1;
            if test(c) {
                found.add(c as u32);
            }
        }
        found
    }

    /// Takes in a member above all before it: the last range grows if it ends right below.
    fn add(&mut self, code: u32) {
        self.members += 1;
        match self.ranges.last_mut() {
            Some((_, high)) if *high + 1 == code => *high = code,
            _ => self.ranges.push((code, code)),
        }
    }
}

fn main() {
    for (name, test) in TESTS {
        let found = Members::of(test);
        let (asked, members) = (found.asked, found.members);
        let ranges = found.ranges.len();
        println!("{name} asked {asked} members {members} ranges {ranges}");
        for (low, high) in found.ranges {
            println!("{low:04x} {high:04x}");
        }
    }
}
