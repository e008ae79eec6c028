// Four scanners of two crates behind four C functions: 0 the DFA and 1 the NFA of aho-corasick, 2 the dense and 3 the sparse DFA of regex-automata.
use aho_corasick::{AhoCorasick, AhoCorasickBuilder};
use regex_automata::{Regex, RegexBuilder, SparseDFA, DFA};

enum Scanner {
    Words(AhoCorasick),
    Dense(Regex),
    Sparse(Regex<SparseDFA<Vec<u8>, usize>>),
}

static mut SCANNER: Option<Scanner> = None;

// Words by falling length, so that the first that matches is the longest.
fn expression(words: &[&[u8]]) -> String {
    let mut sorted = words.to_vec();
    sorted.sort_by_key(|w| std::cmp::Reverse(w.len()));
    let parts: Vec<String> = sorted.iter().map(|w| w.iter().map(|x| format!("\\x{:02x}", x)).collect()).collect();
    format!("(?-u){}", parts.join("|"))
}

fn dense(words: &[&[u8]]) -> Regex {
    RegexBuilder::new().unicode(false).allow_invalid_utf8(true).build(&expression(words)).expect("an expression")
}

/// Makes a scanner of the words, which stand 13 bytes apart; answers the bytes of its form.
#[no_mangle]
pub unsafe extern "C" fn crates_prepare(kind: u32, words: *const u8, lengths: *const u32, number: u32) -> usize {
    let list: Vec<&[u8]> = (0..number as usize).map(|w| std::slice::from_raw_parts(words.add(13 * w), *lengths.add(w) as usize)).collect();
    let (scanner, bytes) = match kind {
        0 | 1 => {
            let made = AhoCorasickBuilder::new().dfa(kind == 0).build(&list);
            let bytes = made.heap_bytes();
            (Scanner::Words(made), bytes)
        }
        2 => {
            let made = dense(&list);
            let bytes = made.forward().memory_usage() + made.reverse().memory_usage();
            (Scanner::Dense(made), bytes)
        }
        _ => {
            let made = dense(&list);
            let made = Regex::from_dfas(made.forward().to_sparse().expect("sparse"), made.reverse().to_sparse().expect("sparse"));
            let bytes = made.forward().memory_usage() + made.reverse().memory_usage();
            (Scanner::Sparse(made), bytes)
        }
    };
    SCANNER = Some(scanner);
    bytes
}

// The offsets at which some word ends; the words that end at one offset come one after the other.
fn ends(words: &AhoCorasick, payload: &[u8]) -> usize {
    let (mut found, mut last) = (0, 0);
    for m in words.find_overlapping_iter(payload) {
        if m.end() != last {
            found += 1;
            last = m.end();
        }
    }
    found
}

fn apart<D: DFA>(regex: &Regex<D>, payload: &[u8]) -> usize {
    regex.find_iter(payload).count()
}

/// Scans the payload; answers the number of ends, or of matches apart.
#[no_mangle]
#[allow(static_mut_refs, unknown_lints)]
pub unsafe extern "C" fn crates_scan(payload: *const u8, length: usize) -> usize {
    let payload = std::slice::from_raw_parts(payload, length);
    match &SCANNER {
        Some(Scanner::Words(words)) => ends(words, payload),
        Some(Scanner::Dense(regex)) => apart(regex, payload),
        Some(Scanner::Sparse(regex)) => apart(regex, payload),
        None => 0,
    }
}

/// Finds every word of a scanner of aho-corasick; answers how many matches there are, and the sum of their marks (peers.h).
#[no_mangle]
#[allow(static_mut_refs, unknown_lints)]
pub unsafe extern "C" fn crates_all(payload: *const u8, length: usize, marks: *mut u64) -> usize {
    let payload = std::slice::from_raw_parts(payload, length);
    let mut found = 0;
    *marks = 0;
    if let Some(Scanner::Words(words)) = &SCANNER {
        for m in words.find_overlapping_iter(payload) {
            let place = m.end() as u64 * 512 + m.pattern() as u64 + 1;
            *marks = (*marks).wrapping_add(place.wrapping_mul(0x9E37_79B9_7F4A_7C15));
            found += 1;
        }
    }
    found
}
