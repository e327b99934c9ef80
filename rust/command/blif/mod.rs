//! Networks as BLIF files, from ABC, yosys or anyone: brought into records, or read as a gate. What
//! they compute is then the library's to say.

mod formula;
mod network;
mod order;
mod records;
mod wires;

use crate::gates::Gate;
use crate::names::Names;
use crate::rows::{self, Row};
use crate::tables::Table;
use crate::trouble::Trouble;
use network::{Network, Node};
use pelzurivan::{read_formula, rebuild_told, RECORDS, SECOND_RECORD};

/// A network brought into records, and which node each record is.
pub struct Brought {
    pub bytes: Vec<u8>,
    pub names: Names,
    pub nodes: Vec<String>,
}

/// The records of a network. The inputs stand in the file's order, or in that of the names told if
/// they are the same.
pub fn sheet(
    text: &str,
    path: &str,
    edition: u64,
    told: Option<&Names>,
) -> Result<Brought, Trouble> {
    let inside = |why: String| Trouble::file(format!("{path}: {why}"));
    let network = network::read(text).map_err(inside)?;
    let network = network.in_order_of(told).map_err(inside)?;
    let names = Names::of(network.inputs.clone(), network.output.clone()).map_err(inside)?;
    let order = order::all(&network).map_err(inside)?;
    let bytes = records::write(&network, &order, edition).map_err(inside)?;
    let nodes = order.iter().map(|&at| network.nodes[at].name.clone()).collect();
    Ok(Brought { bytes, names, nodes })
}

/// The gate that a network is: one cell by its rows, up to fifteen as a sheet that is rebuilt, any
/// other as one formula, if it isn't too long. Nodes that the output doesn't need are left out.
pub fn gate(text: &str, path: &str) -> Result<Gate, Trouble> {
    let inside = |why: String| Trouble::file(format!("{path}: {why}"));
    let network = network::read(text).map_err(inside)?;
    let n = network.inputs.len();
    let names = Names::of(network.inputs.clone(), network.output.clone()).map_err(inside)?;
    let order = order::needed(&network).map_err(inside)?;
    let table = match &order[..] {
        [one] if network.nodes[*one].rows.iter().all(|row| row.inputs.len() <= n) => {
            alone(&network, &network.nodes[*one])
        }
        _ => together(&network, &order, path)?,
    };
    Ok(Gate::new(table, names, &format!("the network {path}")))
}

/// The table of a node that reads inputs alone: its rows over all inputs.
fn alone(network: &Network, node: &Node) -> Table {
    let wide = |row: &Row| {
        let mut inputs = vec![None; network.inputs.len()];
        for (read, place) in node.reads.iter().zip(&row.inputs) {
            let at = network.inputs.iter().position(|input| input == read)?;
            // A row that asks an input for both values names no assignment.
            if place.is_some() && inputs[at].is_some() && inputs[at] != *place {
                return None;
            }
            inputs[at] = place.or(inputs[at]);
        }
        Some(Row { inputs, one: row.one })
    };
    let rows: Vec<Row> = node.rows.iter().filter_map(wide).collect();
    rows::table_of(network.inputs.len(), &rows, node.value)
}

/// The table of several nodes, by the library: rebuilt from records, else read as a formula.
fn together(network: &Network, order: &[usize], path: &str) -> Result<Table, Trouble> {
    let n = network.inputs.len();
    let mut table = Table::zeros(n);
    let records = records::write(network, order, 2);
    if let Some(records) = records.ok().filter(|bytes| bytes.len() <= RECORDS * SECOND_RECORD) {
        rebuild_told(2, n as u64, &records, &mut table.bytes)?;
        return Ok(table);
    }
    let text = formula::write(network, order).ok_or_else(|| {
        Trouble::file(format!(
            "{path}: over {RECORDS} cells of up to 8 inputs, and over 1,024 bytes as one formula: \
             too large to be read"
        ))
    })?;
    read_formula(n as u64, text.as_bytes(), &mut table.bytes)?;
    Ok(table)
}
