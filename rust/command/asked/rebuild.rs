//! gate rebuild: the table of a sheet.

use super::Asked;
use crate::handed::{self, Handed};
use crate::json::Json;
use crate::listing::columns;
use crate::trouble::Trouble;
use crate::words::{Known, Words};
use pelzurivan::{write_formula, TEXT};

pub static ASKED: Asked = Asked {
    name: "rebuild",
    help: include_str!("../help/rebuild.txt"),
    known: Known { alone: &["--json"], valued: &["--edition", "--n", "--names"] },
    answer,
};

fn answer(words: &Words) -> Result<String, Trouble> {
    let [path] = words.exactly(["SHEET"])?;
    let handed = handed::sheet(path, words, None)?;
    let table = handed.rebuilt()?;
    let formula = formula(&handed);
    if words.has("--json") {
        let mut fields = vec![
            ("number", 0usize.into()),
            ("n", table.n.into()),
            ("table", table.hex().into()),
            ("bytes", table.in_bytes().into()),
        ];
        fields.extend(formula.map(|formula| ("formula", formula.into())));
        return Ok(format!("{}\n", Json::object(fields)));
    }
    let mut rows = vec![
        vec!["table".to_string(), format!("0x{}", table.hex())],
        vec!["bytes".to_string(), table.in_bytes()],
    ];
    rows.extend(formula.map(|formula| vec!["formula".to_string(), formula]));
    Ok(columns(&rows))
}

/// The formula that the library prints for a first-edition sheet of cells with two inputs.
fn formula(handed: &Handed) -> Option<String> {
    if handed.edition.told != 1 {
        return None;
    }
    let mut room = [0; TEXT];
    let length = write_formula(handed.n as u64, &handed.bytes, &mut room).ok()?;
    String::from_utf8(room[..length].to_vec()).ok()
}
