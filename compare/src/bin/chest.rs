//! chest: the sheet of a chest's test results (standard input, as crates/sheet/stdin) as crate pretty lays it out. The document is the one
//! that crates/rows builds, made by the crate's own constructors; the margin is the one that crates/strip prints.

#[cfg(not(pretty))]
fn main() {
    println!("crate pretty is not at hand (its source's folder: PRETTY_SOURCE), so there is no sheet of its");
    std::process::exit(3);
}

#[cfg(pretty)]
fn main() {
    let input = std::io::read_to_string(std::io::stdin()).expect("UTF-8");
    let arena = pretty::Arena::new();
    let mut parts: Vec<_> = input.lines().map(|line| sheet::part(&arena, line)).collect();
    parts.push(sheet::footer(&arena, &input));
    let wrote = compare::beside::write(&pretty::DocAllocator::concat(&arena, parts), 42);
    print!("{}", sheet::with_margins(&wrote));
}

#[cfg(pretty)]
mod sheet {
    use compare::beside::{Built, Wrote};
    use pretty::block::{Affixes, BlockDoc};
    use pretty::{Arena, DocAllocator};

    /// What a line adds: a row, a heading or an empty line.
    pub fn part<'a>(arena: &'a Arena<'a, u32>, line: &str) -> Built<'a> {
        if line.is_empty() {
            return arena.hardline();
        }
        if let Some(heading) = line.strip_prefix('#') {
            return words(arena, heading, 42).append(arena.hardline());
        }
        let fields: Vec<&str> = line.splitn(4, ';').collect();
        let fixed = arena.text(format!("{:6}{:>4} g{:>6} mm", fields[0], fields[1], fields[2]));
        let remark = fields[3].trim_matches(' ');
        let row = if remark.is_empty() { fixed.append(arena.hardline()) } else { remarked(arena, fixed, remark) };
        match label(fields[1], fields[2]) {
            0 => row,
            label => row.annotate(label),
        }
    }

    /// The remark beside the row and a Hardline, or filled below it and a Hardline.
    fn remarked<'a>(arena: &'a Arena<'a, u32>, fixed: Built<'a>, remark: &str) -> Built<'a> {
        let beside = fixed.clone().append(arena.text(format!("  {remark}"))).append(arena.hardline());
        let below = arena.hardline().append(words(arena, remark, 38)).nest(4);
        beside.union(fixed.append(below).append(arena.hardline()))
    }

    /// The words filled by softlines; they stay together up to 12 columns, and no piece has more than `most`: it ends at its last blank, or
    /// within a word that has more.
    fn words<'a>(arena: &'a Arena<'a, u32>, text: &str, most: usize) -> Built<'a> {
        let mut pieces: Vec<String> = Vec::new();
        let mut piece = String::new();
        for character in text.trim_matches(' ').chars() {
            let wide = piece.chars().count();
            if wide == 0 && character == ' ' {
                continue;
            }
            if wide >= 12 && character == ' ' {
                pieces.push(std::mem::take(&mut piece));
                continue;
            }
            if wide == most {
                let rest = piece.rfind(' ').map_or(String::new(), |blank| piece.split_off(blank));
                pieces.push(std::mem::replace(&mut piece, rest.trim_start_matches(' ').to_string()));
            }
            piece.push(character);
        }
        pieces.push(piece);
        arena.intersperse(pieces.into_iter().map(|piece| arena.text(piece)), arena.softline())
    }

    /// An empty line, then the notes out of tolerance as a block, or that all pallets are within; nothing of an input without rows.
    pub fn footer<'a>(arena: &'a Arena<'a, u32>, input: &str) -> Built<'a> {
        let lines = input.lines().filter(|line| !line.is_empty() && !line.starts_with('#'));
        let rows: Vec<Vec<&str>> = lines.map(|line| line.splitn(4, ';').collect()).collect();
        let out: Vec<&str> = rows.iter().filter(|row| label(row[1], row[2]) != 0).map(|row| row[0]).collect();
        let said = match rows.len() {
            0 => return arena.nil(),
            _ if !out.is_empty() => named(arena, &out),
            1 => arena.text("The pallet is within tolerance"),
            rows => arena.text(format!("All {rows} pallets are within tolerance")),
        };
        arena.hardline().append(said).append(arena.hardline())
    }

    /// The notes filled between commas, behind their heading or below it.
    fn named<'a>(arena: &'a Arena<'a, u32>, out: &[&str]) -> Built<'a> {
        let comma = arena.text(",").append(arena.softline());
        let notes = arena.intersperse(out.iter().map(|note| arena.text(note.to_string())), comma);
        let heading = Affixes::new(arena.text("Out of tolerance:"), arena.nil()).nest();
        BlockDoc { affixes: vec![heading], body: arena.line().append(notes) }.format(4)
    }

    /// 0 within tolerance; else 1 for the force, 2 for the pluck point, 3 for both.
    fn label(force: &str, pluck: &str) -> u32 {
        let force: u32 = force.parse().expect("grams");
        let tenths: u32 = pluck.replace(['.', ','], "").parse().expect("tenths");
        u32::from(!(90..=130).contains(&force)) + 2 * u32::from(!(8..=16).contains(&tenths))
    }

    /// Each line with its margin: `! ` where a mark is open.
    pub fn with_margins(wrote: &Wrote) -> String {
        let mut shown = String::new();
        let mut at = 0;
        for line in String::from_utf8_lossy(&wrote.bytes).lines() {
            let before = wrote.events.iter().take_while(|event| event.offset as usize <= at);
            let open = before.fold(0i32, |open, event| if event.mark == 1 { open + 1 } else { (open - 1).max(0) });
            shown += if open > 0 { "! " } else { "  " };
            shown += line;
            shown += "\n";
            at += line.len() + 1;
        }
        shown
    }
}

#[cfg(pretty)]
extern crate pretty;
