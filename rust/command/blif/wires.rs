//! Wires: a cell of the file that only hands on the one signal it reads is another name for it, and
//! no cell on a card; and a constant that nothing reads is none either. yosys writes both.

use super::network::{Network, Node};
use std::collections::{HashMap, HashSet};

impl Network {
    /// The network without its wires, each read by the name of what it hands on. The output stays a
    /// cell where it hands on an input, or a cell that others read too.
    pub fn without_wires(mut self) -> Result<Network, String> {
        let ends = ends(&self.nodes)?;
        let end = |name: &String| ends.get(name).unwrap_or(name).clone();
        let output = self.output.clone();
        self.nodes.retain(|node| node.name == output || !ends.contains_key(&node.name));
        for read in self.nodes.iter_mut().flat_map(|node| &mut node.reads) {
            *read = end(read);
        }
        self.join_output(&end(&output));
        let read: HashSet<String> = self.nodes.iter().flat_map(|node| node.reads.clone()).collect();
        let kept = |node: &Node| {
            !node.reads.is_empty() || node.name == output || read.contains(&node.name)
        };
        self.nodes.retain(kept);
        Ok(self)
    }

    /// If the output hands on a cell that it alone reads, that cell gives the output itself.
    fn join_output(&mut self, giver: &str) {
        let reads = self.nodes.iter().flat_map(|node| &node.reads);
        let readers = reads.filter(|read| *read == giver).count();
        let output = self.output.clone();
        if giver == output || readers != 1 || !self.nodes.iter().any(|node| node.name == giver) {
            return;
        }
        self.nodes.retain(|node| node.name != output);
        for node in self.nodes.iter_mut().filter(|node| node.name == giver) {
            node.name = output.clone();
        }
    }
}

/// The name of a cell that only hands on its one read, and the read.
fn wire(node: &Node) -> Option<(&str, &str)> {
    let hands_on = node.rows.iter().all(|row| row.inputs == [Some(node.value)]);
    match &node.reads[..] {
        [read] if hands_on && !node.rows.is_empty() => Some((&node.name, read)),
        _ => None,
    }
}

/// What each wire hands on in the end. Each is followed once, so that a long chain takes no longer.
fn ends(nodes: &[Node]) -> Result<HashMap<String, String>, String> {
    let wires: HashMap<&str, &str> = nodes.iter().filter_map(wire).collect();
    let mut ends: HashMap<String, String> = HashMap::new();
    for (name, _) in nodes.iter().filter_map(wire) {
        let (mut path, mut at) = (Vec::new(), name);
        while let (None, Some(next)) = (ends.get(at), wires.get(at)) {
            if path.len() == wires.len() {
                return Err(format!("a loop: {at} only hands itself on"));
            }
            path.push(at);
            at = next;
        }
        let end = ends.get(at).cloned().unwrap_or_else(|| at.to_string());
        ends.extend(path.into_iter().map(|at| (at.to_string(), end.clone())));
    }
    Ok(ends)
}

#[cfg(test)]
mod tests {
    use super::super::network::read;

    /// The cells that are left of a network over a and b, as "name: reads".
    fn left(nodes: &str) -> Result<Vec<String>, String> {
        let network = read(&format!(".inputs a b\n.outputs f\n{nodes}"))?;
        let cell = |node: &super::Node| format!("{}: {}", node.name, node.reads.join(" "));
        Ok(network.nodes.iter().map(cell).collect())
    }

    #[test]
    fn a_wire_is_another_name() {
        let aliased = ".names a x\n1 1\n.conn x y\n.names y b p\n10 1\n.names p q\n0 0\n";
        assert_eq!(left(&format!("{aliased}.names q f\n1 1\n")).unwrap(), ["f: a b"]);
        assert_eq!(left(&format!("{aliased}.names q y f\n11 1\n")).unwrap(), ["p: a b", "f: p a"]);
        assert_eq!(left(".names b f\n1 1\n.names f spare\n1 1\n").unwrap(), ["f: b"]);
        let read_twice = format!("{aliased}.names p f\n1 1\n.names q spare\n0 1\n");
        assert_eq!(left(&read_twice).unwrap(), ["p: a b", "f: p", "spare: p"]);
    }

    #[test]
    fn constants_stay_only_where_they_are_read() {
        let both = ".names $false\n.names $true\n1\n";
        assert_eq!(left(&format!("{both}.names a b f\n11 1\n")).unwrap(), ["f: a b"]);
        assert_eq!(left(&format!("{both}.names $true f\n1 1\n")).unwrap(), ["f: "]);
        let read = format!("{both}.names $true a f\n11 1\n");
        assert_eq!(left(&read).unwrap(), ["$true: ", "f: $true a"]);
    }

    #[test]
    fn wires_in_a_ring_are_said_and_long_chains_are_quick() {
        assert!(left(".names y x\n1 1\n.names x y\n1 1\n.names x f\n1 1\n").is_err());
        assert!(left(".names f f\n1 1\n").is_err());
        let link = |at: usize| format!(".names x{} x{at}\n1 1\n", at + 1);
        let chain: String = (0..15_000).map(link).collect();
        let long = left(&format!(".names x0 b f\n11 1\n{chain}.names a x15000\n1 1\n"));
        assert_eq!(long.unwrap(), ["f: a b"]);
    }
}
