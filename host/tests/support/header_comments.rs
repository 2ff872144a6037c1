//! The refusals that the comments of `include/nwk.h` list: each function's, behind the word `Refusals`.
use super::command::root;
use std::fs;

/// What may stand before a clause's number.
const BEFORE: [&str; 2] = ["of a sealed frame ", "of any frame "];

/// The numbers that the comment of this function lists, in its order; none if it has no such list.
pub fn refusals(function: &str) -> Vec<u8> {
    let header = fs::read_to_string(root().join("include/nwk.h")).expect("include/nwk.h");
    let place = header.find(&format!("\nuint64_t {function}(")).unwrap_or_else(|| panic!("no {function} in nwk.h"));
    let comment = &header[header[..place].rfind("/*").expect("a comment before each function")..place];
    let text = comment.replace("\n *", "");
    let list = text.split_once("Refusals: ").map_or("", |(_, list)| list);
    let list = list.split_once("Afterwards").map_or(list, |(list, _)| list);
    list.split([';', ',']).fold(Vec::new(), listed)
}

/// The numbers with those of one more clause. A number that is listed again, on another condition, stands where it was first.
fn listed(mut numbers: Vec<u8>, clause: &str) -> Vec<u8> {
    let (first, last) = clause_numbers(clause.trim());
    for number in first..=last {
        if !numbers.contains(&number) {
            numbers.push(number);
        }
    }
    numbers
}

/// The first and the last number of a clause: `15 no ..`, `10 and 11 too ..` or `1 to 12 as ..`; 1 and 0 if it has none.
fn clause_numbers(clause: &str) -> (u8, u8) {
    let bare = BEFORE.iter().find_map(|before| clause.strip_prefix(before)).unwrap_or(clause);
    let words: Vec<&str> = bare.split(' ').collect();
    let number = |i: usize| words.get(i).and_then(|word| word.parse().ok());
    match (number(0), words.get(1), number(2)) {
        (Some(first), Some(&("to" | "and")), Some(last)) => (first, last),
        (Some(only), _, _) => (only, only),
        _ => (1, 0),
    }
}
