//! differences [check FILE]: for each known difference (known.txt) the table, what document 01 says and what the crate does,
//! in the lines that docs/DIFFERENCES.md has. With check: that FILE has each of these lines, status 1 if not.

#[cfg(not(pretty))]
fn main() {
    println!("crate pretty is not at hand (its source's folder: PRETTY_SOURCE), so there is nothing to tell");
    std::process::exit(3);
}

#[cfg(pretty)]
fn main() {
    use compare::known::known;
    let arguments: Vec<String> = std::env::args().skip(1).collect();
    let told: Vec<Vec<String>> = known().iter().filter(|known| known.name.starts_with("differs")).map(tell::lines).collect();
    match &arguments[..] {
        [] => told.iter().for_each(|lines| println!("{}\n", lines.join("\n"))),
        [check, file] if check == "check" => {
            let text = std::fs::read_to_string(file).expect("a file to check");
            let missing: Vec<&String> = told.iter().flatten().filter(|line| !text.contains(line.as_str())).collect();
            missing.iter().for_each(|line| println!("not in {file}: {line}"));
            println!("{} differences, lines missing: {}", told.len(), missing.len());
            std::process::exit(i32::from(!missing.is_empty()));
        }
        _ => {
            eprintln!("differences: differences, or differences check FILE");
            std::process::exit(2);
        }
    }
}

#[cfg(pretty)]
mod tell {
    use compare::beside::lay_out;
    use compare::known::Known;
    use compare::model::Event;
    use compare::tables::shown;

    pub fn lines(known: &Known) -> Vec<String> {
        let table = &known.call.table;
        let report = known.call.run().report;
        let wrote = lay_out(&table.words, &table.text, known.call.width);
        let differs = wrote.failed != (report.answer == 6) || wrote.bytes != report.bytes || wrote.events != report.events;
        assert!(differs, "{} does not differ", known.name);
        vec![
            format!("    {}, width {}", table.said(), known.call.width),
            format!("    {} over \"{}\"", table.written(), shown(&table.text)),
            format!(
                "    01 and we: answer {}, {} steps{}",
                report.answer,
                report.steps,
                written(&report.bytes, &report.events)
            ),
            format!("    the crate: {}{}", if wrote.failed { "fails" } else { "done" }, written(&wrote.bytes, &wrote.events)),
        ]
    }

    fn written(bytes: &[u8], events: &[Event]) -> String {
        let one = |e: &Event| format!("{} {} at {}", if e.mark == 1 { "open" } else { "close" }, e.label, e.offset);
        let mut all = format!(", writes `{}`", shown(bytes));
        if !events.is_empty() {
            all += &format!("; {}", events.iter().map(one).collect::<Vec<_>>().join(", "));
        }
        all
    }
}
