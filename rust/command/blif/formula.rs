//! A network as one formula: each cell's rows, with the cells that it reads written out in their
//! place.

use super::network::{Network, Node};
use pelzurivan::TEXT;
use std::collections::HashMap;

/// The formula, if none of its parts is longer than a formula may be.
pub fn write(network: &Network, order: &[usize]) -> Option<String> {
    let mut texts: HashMap<&str, String> = HashMap::new();
    for (input, letter) in network.inputs.iter().zip('a'..='p') {
        texts.insert(input, letter.to_string());
    }
    let mut last = String::new();
    for &at in order {
        let node = &network.nodes[at];
        last = of(node, &texts).filter(|text| text.len() <= TEXT)?;
        texts.insert(&node.name, last.clone());
    }
    Some(last)
}

/// A cell as a factor: a sum of its rows in parentheses, flipped where the rows say 0.
fn of(node: &Node, texts: &HashMap<&str, String>) -> Option<String> {
    let constant = |one: bool| Some(if one { "1" } else { "0" }.to_string());
    if node.rows.is_empty() {
        return constant(!node.value);
    }
    let mut terms = Vec::new();
    let mut length = 0;
    for row in &node.rows {
        let mut factors = Vec::new();
        for (read, place) in node.reads.iter().zip(&row.inputs) {
            let text = &texts[read.as_str()];
            match place {
                Some(true) => factors.push(text.clone()),
                Some(false) => factors.push(format!("!{text}")),
                None => {}
            }
        }
        if factors.is_empty() {
            return constant(node.value);
        }
        terms.push(factors.join("&"));
        length += terms[terms.len() - 1].len();
        if length > TEXT {
            return None;
        }
    }
    let sum = terms.join("|");
    Some(match (node.value, terms.len() == 1 && !sum.contains('&')) {
        (true, true) => sum,
        (true, false) => format!("({sum})"),
        (false, true) if !sum.starts_with('!') => format!("!{sum}"),
        (false, _) => format!("!({sum})"),
    })
}

#[cfg(test)]
mod tests {
    use super::super::{network::read, order};
    use super::*;

    fn formula_of(nodes: &str) -> Option<String> {
        let network = read(&format!(".inputs x y z\n.outputs f\n{nodes}")).unwrap();
        write(&network, &order::needed(&network).unwrap())
    }

    #[test]
    fn cells_stand_in_the_place_of_their_names() {
        let text = formula_of(".names x y p\n11 1\n.names p z f\n1- 1\n-0 1\n");
        assert_eq!(text.as_deref(), Some("((a&b)|!c)"));
        assert_eq!(formula_of(".names x f\n0 0\n").as_deref(), Some("!(!a)"));
        assert_eq!(formula_of(".names x f\n").as_deref(), Some("0"));
        assert_eq!(formula_of(".names x f\n- 0\n").as_deref(), Some("0"));
        assert_eq!(formula_of(".names f\n1\n").as_deref(), Some("1"));
    }

    #[test]
    fn too_long_is_none() {
        let double = |at: usize| format!(".names p{at} x p{}\n10 1\n01 1\n", at + 1);
        let nodes: String = (0..20).map(double).collect();
        assert_eq!(formula_of(&format!(".names y p0\n1 1\n{nodes}.names p20 f\n1 1\n")), None);
    }
}
