//! The cells of a network as records of a sheet: signals in increasing order and each once. A
//! constant becomes a cell that reads signal 0 and doesn't care.

use super::network::{Network, Node};
use crate::rows;
use crate::sheets::{record, Edition};
use std::collections::HashMap;

/// The records in the given order; in words why a cell is none. Signals are bytes below 255: of a
/// network that has more only the first are written, far more than a sheet may have.
pub fn write(network: &Network, order: &[usize], edition: u64) -> Result<Vec<u8>, String> {
    let edition = Edition::of(edition);
    let n = network.inputs.len();
    let mut signals: HashMap<&str, u8> = HashMap::new();
    for (j, input) in network.inputs.iter().enumerate() {
        signals.insert(input, j as u8);
    }
    let mut bytes = Vec::new();
    for (i, &at) in order.iter().take(255 - n).enumerate() {
        let node = &network.nodes[at];
        let (reads, bits) = cell(node, &signals);
        if reads.len() > edition.most_inputs {
            let (name, count, most) = (&node.name, reads.len(), edition.most_inputs);
            return Err(format!("{name} reads {count} signals: a cell of this edition has {most}"));
        }
        bytes.extend(record(&edition, &reads, 0, &bits));
        signals.insert(&node.name, (n + i) as u8);
    }
    Ok(bytes)
}

/// The distinct signals of a cell in increasing order, and its table's bits over them.
fn cell(node: &Node, signals: &HashMap<&str, u8>) -> (Vec<u8>, Vec<bool>) {
    let listed: Vec<u8> = node.reads.iter().map(|read| signals[read.as_str()]).collect();
    let mut reads = listed.clone();
    reads.sort_unstable();
    reads.dedup();
    if reads.is_empty() {
        reads.push(0);
    }
    let table = rows::table_of(listed.len(), &node.rows, node.value);
    let place = |signal: &u8| reads.iter().position(|read| read == signal).unwrap_or(0);
    let places: Vec<usize> = listed.iter().map(place).collect();
    let bit = |y: usize| {
        let x: usize = places.iter().enumerate().map(|(j, place)| (y >> place & 1) << j).sum();
        table.bytes[x / 8] >> (x % 8) & 1 == 1
    };
    let bits = (0..1 << reads.len()).map(bit).collect();
    (reads, bits)
}

#[cfg(test)]
mod tests {
    use super::super::{network::read, order};
    use super::*;

    fn records_of(nodes: &str, edition: u64) -> Result<Vec<u8>, String> {
        let network = read(&format!(".inputs a b c d e f g\n.outputs o\n{nodes}")).unwrap();
        write(&network, &order::all(&network).unwrap(), edition)
    }

    #[test]
    fn order_repeats_and_constants() {
        // o is b and not a, its reads in falling order and one of them twice.
        let swapped = records_of(".names b a b o\n101 1\n", 1).unwrap();
        assert_eq!(swapped[..9], [2, 0, 1, 255, 255, 255, 255, 0, 4]);
        let constants = records_of(".names one\n1\n.names one o\n0 1\n", 1).unwrap();
        assert_eq!(constants[..9], [1, 0, 255, 255, 255, 255, 255, 0, 3]);
        assert_eq!(constants[16..25], [1, 7, 255, 255, 255, 255, 255, 0, 1]);
        let zero_rows = records_of(".names a b o\n11 0\n", 1).unwrap();
        assert_eq!(zero_rows[8], 7);
    }

    #[test]
    fn seven_signals_are_for_the_second_edition() {
        let seven = ".names a b c d e f g o\n1111111 1\n";
        assert!(records_of(seven, 1).is_err());
        assert_eq!(records_of(seven, 2).map(|bytes| bytes.len()), Ok(48));
    }
}
