//! The cells of a network in an order in which each reads only what stands before it.

use super::network::Network;
use std::collections::HashMap;

/// How far a cell's turn has come.
#[derive(Clone, Copy, PartialEq, Eq)]
enum Turn {
    Waits,
    Begun,
    Done,
}

struct Walk<'a> {
    network: &'a Network,
    places: HashMap<&'a str, usize>,
    turns: Vec<Turn>,
    order: Vec<usize>,
}

/// The cells that the output needs, the output last.
pub fn needed(network: &Network) -> Result<Vec<usize>, String> {
    let mut walk = Walk::new(network);
    walk.visit(walk.output()?)?;
    Ok(walk.order)
}

/// Every cell, as far as may be in the file's order, the output last.
pub fn all(network: &Network) -> Result<Vec<usize>, String> {
    let mut walk = Walk::new(network);
    let output = walk.output()?;
    for at in (0..network.nodes.len()).filter(|&at| at != output) {
        walk.visit(at)?;
        if walk.turns[output] == Turn::Done {
            let name = &network.nodes[at].name;
            return Err(format!("{name} needs the output, which is to be the last cell"));
        }
    }
    walk.visit(output)?;
    Ok(walk.order)
}

impl<'a> Walk<'a> {
    fn new(network: &'a Network) -> Walk<'a> {
        let nodes = network.nodes.iter().enumerate();
        let places = nodes.map(|(at, node)| (node.name.as_str(), at)).collect();
        let turns = vec![Turn::Waits; network.nodes.len()];
        Walk { network, places, turns, order: Vec::new() }
    }

    fn output(&self) -> Result<usize, String> {
        let name = &self.network.output;
        self.places.get(name.as_str()).copied().ok_or_else(|| {
            if self.network.inputs.contains(name) {
                format!("the output is the input {name} itself: no cell gives it")
            } else {
                format!("no cell gives the output {name}")
            }
        })
    }

    /// Puts a cell after all it reads. The cells that have begun are kept in a list, so that a long
    /// chain of cells takes no deep stack.
    fn visit(&mut self, from: usize) -> Result<(), String> {
        let mut begun = vec![from];
        while let Some(&at) = begun.last() {
            if self.turns[at] == Turn::Done {
                begun.pop();
                continue;
            }
            self.turns[at] = Turn::Begun;
            match self.waiting(at)? {
                Some(read) if self.turns[read] == Turn::Begun => {
                    let (one, other) =
                        (&self.network.nodes[at].name, &self.network.nodes[read].name);
                    return Err(format!("a loop: {one} reads {other}, which needs {one}"));
                }
                Some(read) => begun.push(read),
                None => {
                    self.turns[at] = Turn::Done;
                    self.order.push(at);
                }
            }
        }
        Ok(())
    }

    /// The first cell that this one reads and that isn't done.
    fn waiting(&self, at: usize) -> Result<Option<usize>, String> {
        let node = &self.network.nodes[at];
        for read in node.reads.iter().filter(|read| !self.network.inputs.contains(read)) {
            match self.places.get(read.as_str()) {
                None => return Err(format!("{} reads {read}, which nothing gives", node.name)),
                Some(&place) if self.turns[place] != Turn::Done => return Ok(Some(place)),
                Some(_) => {}
            }
        }
        Ok(None)
    }
}

#[cfg(test)]
mod tests {
    use super::super::network::read;
    use super::*;

    fn of(nodes: &str) -> Network {
        read(&format!(".inputs a b\n.outputs f\n{nodes}")).unwrap()
    }

    #[test]
    fn any_order_becomes_one_that_goes_up() {
        let network =
            of(".names y b f\n11 1\n.names x y\n0 1\n.names a x\n0 1\n.names a dead\n0 1");
        assert_eq!(all(&network), Ok(vec![2, 1, 3, 0]));
        assert_eq!(needed(&network), Ok(vec![2, 1, 0]));
    }

    #[test]
    fn loops_and_gaps_are_said() {
        for nodes in [
            ".names f a x\n11 1\n.names x b f\n11 1",
            ".names f f\n0 1",
            ".names x f\n1 1",
            ".names a x\n0 1",
        ] {
            assert!(needed(&of(nodes)).is_err(), "{nodes:?}");
        }
        let reads_the_output = of(".names a f\n0 1\n.names f z\n0 1");
        assert!(all(&reads_the_output).is_err() && needed(&reads_the_output).is_ok());
    }

    #[test]
    fn a_long_chain_takes_no_deep_stack() {
        let link = |at: usize| format!(".names x{} x{at}\n0 1\n", at + 1);
        let chain: String = (0..15_000).map(link).collect();
        let network = of(&format!(".names x0 f\n0 1\n{chain}.names a x15000\n0 1\n"));
        assert_eq!(needed(&network).map(|order| order.len()), Ok(15_002));
    }
}
