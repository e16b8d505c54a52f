//! Programs of constructor calls at random. An operand is the number of an earlier call, whose node or document it names.

use crate::made::{Lent, Lists};
use crate::make::{Affix, Make};
use crate::tables::Random;

/// Texts with the columns that the crate's own measuring gives them, since ours are stated.
pub const MEASURED: [(&str, u32); 8] =
    [("é", 1), ("ß", 1), ("€", 1), ("日本", 4), ("e\u{301}", 1), ("😀", 2), ("aé", 2), ("naïve", 5)];

pub fn random_program(random: &mut Random, length: usize) -> Vec<Make> {
    (0..length).map(|call| random_make(random, call)).collect()
}

fn random_make(random: &mut Random, calls: usize) -> Make {
    if calls == 0 || random.one_in(3) {
        return random_leaf(random);
    }
    // mostly the last few, so that the program grows one document
    let mut any = || (calls - 1 - if random.one_in(4) { random.below(calls) } else { random.below(calls.min(3)) }) as u32;
    let (a, b, c) = (any(), any(), any());
    match random.below(30) {
        0..=6 => Make::Append(a, b),
        7..=8 => Make::Concat((0..random.below(5)).map(|_| random.below(calls) as u32).collect()),
        9..=10 => Make::Intersperse((0..random.below(5)).map(|_| random.below(calls) as u32).collect(), b),
        11 => Make::FlatAlt(a, b),
        12..=15 => Make::Group(a),
        16..=17 => Make::Nest(a, random_amount(random), random.below(2) as u32),
        18..=19 => Make::Annotate(a, random.below(9) as u32),
        20..=21 => Make::Union(a, b),
        22 => Make::Align(a),
        23 => Make::Hang(a, random_amount(random), random.below(2) as u32),
        24 => Make::Indent(a, random_amount(random)),
        25 => Make::Enclose(a, b, c),
        _ => {
            let count = if random.one_in(4) { random.below(9) } else { random.below(4) };
            let affixes = random_affixes(random, calls, count);
            Make::Block(affixes, a, random_amount(random), random.below(2) as u32)
        }
    }
}

/// So many affixes; some have one prefix for all, so that all may be a Nil.
fn random_affixes(random: &mut Random, calls: usize, count: usize) -> Vec<Affix> {
    let (alike, one) = (random.one_in(4), random.below(calls));
    let affix = |_| Affix {
        prefix: if alike { one } else { random.below(calls) } as u32,
        suffix: random.below(calls) as u32,
        nest: random.one_in(2),
    };
    (0..count).map(affix).collect()
}

fn random_amount(random: &mut Random) -> u32 {
    (if random.one_in(50) { random.below(1001) } else { random.below(5) }) as u32
}

fn random_leaf(random: &mut Random) -> Make {
    match random.below(16) {
        0 => Make::Nil,
        1 => Make::Fail,
        2 => Make::Hardline,
        3 => Make::Space,
        4..=5 => Make::Line,
        6 => Make::LineFlat,
        7 => Make::Softline,
        8 => Make::SoftlineFlat,
        9 => {
            let (text, columns) = *random.of(&MEASURED);
            Make::Text(text.as_bytes().to_vec(), columns)
        }
        _ => {
            let length = random.below(7);
            Make::Text((0..length).map(|_| b'a' + random.below(26) as u8).collect(), length as u32)
        }
    }
}

/// A call whose operands are node numbers, often past those that there are, and whose amounts and texts are often wrong.
pub fn wild_make(random: &mut Random, nodes: usize) -> Make {
    let make = random_make(random, nodes);
    let wild = random.one_in(12);
    let past = random.below(3);
    let make =
        with_operands(&make, &|operand| if wild && operand as usize % 3 == past { operand + nodes as u32 } else { operand });
    if !random.one_in(8) {
        return make;
    }
    let wrong = *random.of(&[999, 1000, 1001, 65_536, u32::MAX]);
    match make {
        Make::Nest(a, amount, _) => Make::Nest(a, amount, random.below(3) as u32),
        Make::Hang(a, _, way) => Make::Hang(a, wrong, way),
        Make::Indent(a, _) => Make::Indent(a, wrong),
        Make::Block(affixes, body, amount, way) => match random.below(3) {
            0 => Make::Block(affixes, body, wrong, way),
            1 => Make::Block(affixes, body, amount, *random.of(&[2, u32::MAX])),
            _ => {
                let more = 9 + random.below(4);
                Make::Block(random_affixes(random, 2 * nodes, more), body, wrong, way)
            }
        },
        Make::Text(mut bytes, columns) => {
            if bytes.is_empty() || random.one_in(3) {
                return Make::Text(bytes, *random.of(&[0, 1, columns.wrapping_add(1), u32::MAX]));
            }
            let at = random.below(bytes.len());
            bytes[at] = if random.one_in(3) { b'\n' } else { random.draw() as u8 };
            Make::Text(bytes, columns)
        }
        other => other,
    }
}

/// A block whose three lists are not of one length, each often longer than there may be affixes. Nothing else need be right.
pub fn uneven_lists(random: &mut Random, nodes: usize) -> Lists {
    let count = random.below(10);
    let affixes = random_affixes(random, nodes + 2, count);
    let mut lists = Lists::of(&affixes, [random.below(nodes + 2) as u32, random_amount(random), random.below(3) as u32]);
    let other = (count + 1 + random.below(9)) % 10;
    match random.below(3) {
        0 => lists.prefixes.resize(other, 0),
        1 => lists.suffixes.resize(other, 0),
        _ => lists.nests.resize(other, 1),
    }
    lists
}

/// Buffers of these lengths, full of words and bytes that could be a table's; no node and no byte is in use.
pub fn soiled_lent(random: &mut Random, words: usize, bytes: usize) -> Lent {
    let some: Vec<u32> = (0..67).map(|_| random.below(12) as u32).collect();
    let beyond = random.one_in(2);
    let letters: Vec<u8> =
        (0..23).map(|_| if beyond && random.one_in(9) { 0xe9 } else { b'A' + random.below(26) as u8 }).collect();
    let table = some.iter().copied().cycle().take(words).collect();
    let text = letters.iter().copied().cycle().take(bytes).collect();
    Lent { table, text, counts: vec![0; 3] }
}

/// Buffers of any lengths, with any counts: often near the limits of 1,024 nodes and 65,536 bytes, or past what is lent.
pub fn wild_lent(random: &mut Random) -> Lent {
    let words = if random.one_in(8) { 4080 + random.below(40) } else { random.below(200) };
    let bytes = if random.one_in(16) { 65_530 + random.below(16) } else { random.below(60) };
    let mut lent = soiled_lent(random, words, bytes);
    // room for a block of 8 affixes now and then
    let free = if random.one_in(4) { random.below(300) } else { random.below(30) };
    let nodes = (words / 4).saturating_sub(free);
    lent.counts[0] = nodes as u32;
    lent.counts[1] = bytes.saturating_sub(random.below(60)) as u32;
    if random.one_in(12) {
        let at = random.below(2);
        lent.counts[at] = *random.of(&[0, 1, (words / 4) as u32 + 1, bytes as u32 + 1, 1024, 65_536, 1 << 30, u32::MAX]);
    }
    if random.one_in(12) {
        lent.counts.resize(random.below(6), 7);
    }
    lent
}

/// The same call with each operand replaced.
pub fn with_operands(make: &Make, to: &dyn Fn(u32) -> u32) -> Make {
    let all = |nodes: &[u32]| nodes.iter().map(|&node| to(node)).collect::<Vec<u32>>();
    match make {
        Make::Append(a, b) => Make::Append(to(*a), to(*b)),
        Make::Concat(nodes) => Make::Concat(all(nodes)),
        Make::Intersperse(nodes, separator) => Make::Intersperse(all(nodes), to(*separator)),
        Make::FlatAlt(a, b) => Make::FlatAlt(to(*a), to(*b)),
        Make::Group(a) => Make::Group(to(*a)),
        Make::Nest(a, amount, way) => Make::Nest(to(*a), *amount, *way),
        Make::Annotate(a, label) => Make::Annotate(to(*a), *label),
        Make::Union(a, b) => Make::Union(to(*a), to(*b)),
        Make::Align(a) => Make::Align(to(*a)),
        Make::Hang(a, amount, way) => Make::Hang(to(*a), *amount, *way),
        Make::Indent(a, amount) => Make::Indent(to(*a), *amount),
        Make::Enclose(a, before, after) => Make::Enclose(to(*a), to(*before), to(*after)),
        Make::Block(affixes, body, amount, way) => {
            let affixes = affixes.iter().map(|x| Affix { prefix: to(x.prefix), suffix: to(x.suffix), nest: x.nest });
            Make::Block(affixes.collect(), to(*body), *amount, *way)
        }
        leaf => leaf.clone(),
    }
}
