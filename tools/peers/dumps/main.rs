//! `dumps check FILE`: the plain peer of `scisim check`, for tools/speed. It reads a dump of layout 2, looks at the same rules in the
//! same order, and prints the same. What is no such dump ends it.

use std::collections::HashSet;
use std::fmt::Write as _;
use std::io::Write as _;

const NONE: u16 = 65535;
const KINDS: [&str; 10] = [
    "INVALID", "QUEUED", "FRESH", "DIRTY", "CONVERT", "PURGING", "LEAVING", "VALID", "ROLL", "PURGED",
];
const STATES: [&str; 3] = ["HOME", "FRESH", "GONE"];

#[derive(Clone, Copy)]
struct Tag {
    kind: u8,
    held: bool,
    forw: u16,
    back: u16,
}

struct Line {
    state: u8,
    lent: bool,
    head: u16,
    memory: [u64; 9],
    tags: Vec<Tag>,
    contents: Vec<[u64; 9]>,
}

fn number(word: &str) -> Option<u64> {
    if word.len() > 1 && word.starts_with('0') || !word.bytes().all(|b| b.is_ascii_digit()) {
        return None;
    }
    word.parse().ok()
}

fn code(word: &str) -> Option<u64> {
    if word.len() != 16 || !word.bytes().all(|b| matches!(b, b'0'..=b'9' | b'a'..=b'f')) {
        return None;
    }
    u64::from_str_radix(word, 16).ok()
}

fn content<'a>(words: &mut impl Iterator<Item = &'a str>) -> Option<[u64; 9]> {
    let mut content = [0; 9];
    for value in &mut content {
        *value = number(words.next()?)?;
    }
    words.next().is_none().then_some(content)
}

fn tag_of(code: u64) -> Option<Tag> {
    let tag = Tag {
        kind: (code & 15) as u8,
        held: code >> 4 & 1 == 1,
        forw: (code >> 16) as u16,
        back: (code >> 32) as u16,
    };
    let is_body = matches!(tag.kind, 7..=9);
    let is_well = tag.kind <= 9
        && code >> 48 == 0
        && code >> 5 & 0x7ff == 0
        && is_body == (tag.back != NONE)
        && (tag.kind != 0 || tag.forw == NONE)
        && (!tag.held || matches!(tag.kind, 2 | 3 | 7));
    is_well.then_some(tag)
}

fn line_of<'a>(place: u64, nodes: u64, rows: &mut std::iter::Peekable<impl Iterator<Item = &'a str>>) -> Option<Line> {
    let mut words = rows.next()?.split(' ');
    if words.next()? != "line" || number(words.next()?)? != place {
        return None;
    }
    let word = code(words.next()?)?;
    let (state, head) = ((word & 15) as u8, (word >> 16) as u16);
    if state > 2 || word >> 32 != 0 || word >> 5 & 0x7ff != 0 || (state == 0) != (head == NONE) {
        return None;
    }
    let memory = content(&mut words)?;
    let unused = Tag { kind: 0, held: false, forw: NONE, back: NONE };
    let mut line = Line {
        state,
        lent: word >> 4 & 1 == 1,
        head,
        memory,
        tags: vec![unused; nodes as usize],
        contents: vec![[0; 9]; nodes as usize],
    };
    for node in 0..nodes {
        let mut words = rows.peek()?.split(' ');
        if words.next()? != "tag" || number(words.next()?)? != place || number(words.next()?)? != node {
            continue;
        }
        let tag = tag_of(code(words.next()?)?)?;
        if tag.kind == 0 {
            return None;
        }
        line.tags[node as usize] = tag;
        line.contents[node as usize] = content(&mut words)?;
        rows.next();
    }
    Some(line)
}

fn read(text: &str) -> Option<Vec<Line>> {
    let mut rows = text.strip_suffix('\n')?.split('\n').peekable();
    let mut words = rows.next()?.split(' ');
    if words.next()? != "scidump" || words.next()? != "2" {
        return None;
    }
    let (nodes, count) = (number(words.next()?)?, number(words.next()?)?);
    if words.next().is_some() || !(1..=1024).contains(&nodes) || !(1..=1024).contains(&count) {
        return None;
    }
    let lines = (0..count).map(|place| line_of(place, nodes, &mut rows)).collect::<Option<Vec<_>>>()?;
    (rows.next()? == "end" && rows.next().is_none()).then_some(lines)
}

/// The chain, where it ends.
fn chain(line: &Line) -> Option<Vec<usize>> {
    let (mut next, mut chain, mut seen) = (line.head, Vec::new(), HashSet::new());
    while next != NONE {
        let node = usize::from(next);
        if node >= line.tags.len() || !seen.insert(node) {
            return None;
        }
        chain.push(node);
        next = line.tags[node].forw;
    }
    Some(chain)
}

/// The chain, or the first rule that is broken.
fn check(line: &Line) -> Result<Vec<usize>, u8> {
    if line.lent || line.tags.iter().any(|tag| tag.held || !matches!(tag.kind, 0 | 2 | 3 | 7)) {
        return Err(1);
    }
    let chain = chain(line).ok_or(2)?;
    let valid = line.tags.iter().filter(|tag| tag.kind != 0).count();
    if valid != chain.len() || chain.iter().any(|node| line.tags[*node].kind == 0) {
        return Err(3);
    }
    let is_head = chain.first().map_or(true, |node| matches!(line.tags[*node].kind, 2 | 3));
    let is_linked = |pair: &[usize]| {
        let tag = line.tags[pair[1]];
        tag.kind == 7 && usize::from(tag.back) == pair[0]
    };
    if !is_head || !chain.windows(2).all(is_linked) {
        return Err(4);
    }
    if chain.iter().any(|node| matches!((line.tags[*node].kind, line.state), (2, 0 | 2) | (3, 0 | 1))) {
        return Err(5);
    }
    let shared = chain.first().map(|node| line.contents[*node]);
    if chain.iter().any(|node| Some(line.contents[*node]) != shared) || (line.state == 1 && shared != Some(line.memory)) {
        return Err(6);
    }
    Ok(chain)
}

fn name(tag: Tag) -> String {
    let is_last = tag.forw == NONE;
    match tag.kind {
        2 | 3 => format!("{}_{}", if is_last { "ONLY" } else { "HEAD" }, KINDS[usize::from(tag.kind)]),
        7 => format!("{}_VALID", if is_last { "TAIL" } else { "MID" }),
        kind => KINDS[usize::from(kind)].to_string(),
    }
}

fn main() {
    let text = std::fs::read_to_string(std::env::args().nth(2).expect("dumps check FILE")).expect("a file");
    let lines = read(&text).expect("a dump");
    let mut printed = String::new();
    for (place, line) in lines.iter().enumerate() {
        match check(line) {
            Ok(chain) => {
                let _ = write!(printed, "line {place} {}", STATES[usize::from(line.state)]);
                for (at, node) in chain.iter().enumerate() {
                    let before = if at == 0 { format!(" {node}: ") } else { ", ".to_string() };
                    let _ = write!(printed, "{before}{node} {}", name(line.tags[*node]));
                }
                printed.push('\n');
            }
            Err(rule) => {
                println!("line {place} breaks C{rule}");
                std::process::exit(3);
            }
        }
    }
    printed.push_str("lawful\n");
    std::io::stdout().write_all(printed.as_bytes()).expect("an output");
}
