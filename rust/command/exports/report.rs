//! One page for the inspector: the gate, the sheet, its drawing, what was checked by which call with
//! which answer, and how to repeat it. It needs no other file.

use super::escaped;
use crate::drawing;
use crate::shown::{grouped, Shown};

/// On paper a part stands whole on a page, but for the list of cells, the drawing and the table,
/// which may be longer than one.
const STYLE: &str = "\
body{font:15px/1.45 sans-serif;color:#1b2430;max-width:60rem;margin:2rem auto;padding:0 1rem}\
h1{font-size:1.5rem;margin:0 0 .3rem}h2{font-size:1.1rem;margin:1.6rem 0 .4rem}\
table{border-collapse:collapse;width:100%}\
th,td{text-align:left;padding:.25rem .8rem .25rem 0;border-bottom:1px solid #d5dbe3;\
vertical-align:top;overflow-wrap:anywhere}th{white-space:nowrap}td code{overflow-wrap:normal}\
td span{display:inline-block}\
code,pre{font:13px/1.4 monospace}pre{white-space:pre-wrap;overflow-wrap:anywhere;margin:.3rem 0}\
.wide{font-size:11px;orphans:4;widows:4}svg{display:block;max-width:100%;height:auto}\
.time{white-space:nowrap}.whole,tr,svg{break-inside:avoid}h2,h2+p{break-after:avoid}\
tr:nth-last-child(-n+2){break-before:avoid}\
@media print{body{margin:0;padding:0;max-width:none;font-size:10pt}p{margin:.4rem 0}\
h2{margin:1rem 0 .3rem}th,td{padding:.15rem .8rem .15rem 0}code,pre{font-size:9pt}\
.wide{font-size:7.5pt}svg{max-height:225mm}@page{margin:15mm}}";

pub fn write(shown: &Shown) -> String {
    let title = format!("Inspected: {}", escaped(&shown.names.output));
    let settles = match &shown.times.output[..] {
        "" => String::new(),
        said => format!("<p>{}</p>\n", escaped(said)),
    };
    let body = [
        format!("<h1>{title}</h1>\n<p>{}</p>\n{settles}", escaped(&shown.summary())),
        gate(shown),
        sheet(shown),
        format!("<h2>The drawing</h2>\n{}", drawing::parts(shown, &shown.summary())),
        checked(shown),
        whole("To repeat it", &format!("<pre>{}</pre>\n", escaped(&shown.again))),
        records(shown),
        table(shown),
    ];
    format!(
        "<!DOCTYPE html>\n<html lang=\"en\">\n<head>\n<meta charset=\"utf-8\">\n\
         <title>{title}</title>\n<style>{STYLE}</style>\n</head>\n<body>\n{}</body>\n</html>\n",
        body.concat()
    )
}

/// A part that stands whole on a page.
fn whole(title: &str, body: &str) -> String {
    format!("<section class=\"whole\">\n<h2>{title}</h2>\n{body}</section>\n")
}

fn gate(shown: &Shown) -> String {
    let inputs: Vec<String> = shown.names.inputs.iter().map(|name| escaped(name)).collect();
    let n = shown.sheet.n;
    let said = match &shown.said {
        Some(said) => format!("<p>Handed over as:</p>\n<pre>{}</pre>\n", escaped(said)),
        None => {
            "<p>Only the sheet was handed over; the table below was rebuilt from it.</p>\n".into()
        }
    };
    let inputs = inputs.join(", ");
    whole(
        "The gate",
        &format!("<p>{n} inputs, the first as bit 0 of an assignment: {inputs}.</p>\n{said}"),
    )
}

/// The last part of the page: of many inputs it is long.
fn table(shown: &Shown) -> String {
    format!(
        "<h2>The table</h2>\n<p>Over all {} assignments, most significant first:</p>\n\
         <pre class=\"wide\">{}</pre>\n",
        grouped(1 << shown.sheet.n),
        shown.table.hex()
    )
}

fn sheet(shown: &Shown) -> String {
    let timed = !shown.times.cells.is_empty();
    let settles = if timed { "<th>settles</th>" } else { "" };
    let mut text = format!(
        "<h2>The sheet</h2>\n<table>\n<thead><tr><th>signal</th><th>reads</th><th>table</th>\
         <th>depth</th>{settles}<th>gives</th></tr></thead>\n"
    );
    for (at, cell) in shown.sheet.cells.iter().enumerate() {
        let reads: Vec<String> = cell.reads.iter().map(|&s| shown.names.of_signal(s)).collect();
        let time = shown.times.cells.get(at).map(|time| format!("<td class=\"time\">{time}</td>"));
        text.push_str(&format!(
            "<tr><td>{}</td><td>{}</td><td><code>{}</code></td><td>{}</td>{}<td>{}</td></tr>\n",
            escaped(&shown.signal(at)),
            breakable(&reads.join(", ")),
            digits(&cell.hex()),
            cell.depth,
            time.unwrap_or_default(),
            breakable(&shown.gives(at))
        ));
    }
    text.push_str("</table>\n");
    text
}

fn checked(shown: &Shown) -> String {
    let mut text = String::from(
        "<p>Each answer is that of a call of the proved library; 0 is done.</p>\n<table>\n\
         <thead><tr><th>call</th><th>answer</th></tr></thead>\n",
    );
    for asked in &shown.asked {
        let (call, answer) = (escaped(&asked.call), escaped(&asked.answer));
        text.push_str(&format!("<tr><td><code>{call}</code></td><td>{answer}</td></tr>\n"));
    }
    let readable = shown.gives.iter().filter(|formula| formula.is_some()).count();
    text.push_str(&format!(
        "<tr><td><code>read_formula</code></td><td>0: {readable} of {} cells read back from what \
         they give as their tables</td></tr>\n</table>\n",
        shown.sheet.count()
    ));
    whole("What was checked", &text)
}

/// A cell's table, sixteen digits on a line.
fn digits(hex: &str) -> String {
    let digits: Vec<char> = hex.chars().collect();
    let lines: Vec<String> = digits.chunks(16).map(|line| line.iter().collect()).collect();
    lines.join("<br>")
}

/// Text in a column: a name stays on one line, or is broken after an underscore where the column is
/// narrower than that.
fn breakable(text: &str) -> String {
    let word = |word: &str| match word.contains('_') {
        true => format!("<span>{}</span>", escaped(word).replace('_', "_<wbr>")),
        false => escaped(word),
    };
    text.split(' ').map(word).collect::<Vec<_>>().join(" ")
}

fn records(shown: &Shown) -> String {
    let lines = shown.sheet.bytes.chunks(shown.sheet.edition.record);
    let lines: Vec<String> = lines
        .map(|line| line.iter().map(|byte| format!("{byte:02X}")).collect::<Vec<_>>().join(" "))
        .collect();
    whole("The records", &format!("<pre class=\"wide\">{}</pre>\n", lines.join("\n")))
}
