//! A gate's table and how people write it.

use crate::trouble::Trouble;
use pelzurivan::{table_length, INPUTS};

#[derive(Clone, Debug, PartialEq, Eq)]
pub struct Table {
    pub n: usize,
    pub bytes: Vec<u8>,
}

impl Table {
    pub fn zeros(n: usize) -> Table {
        Table { n, bytes: vec![0; table_length(n)] }
    }

    /// Sets the bit at an assignment below 2^n.
    pub fn set(&mut self, x: usize) {
        self.bytes[x / 8] |= 1 << (x % 8);
    }

    /// Most significant first, as logic tools print tables.
    pub fn hex(&self) -> String {
        let digits = hex_of(self.bytes.iter().rev());
        let most = if self.n < 3 { 1 } else { digits.len() };
        digits[digits.len() - most..].to_string()
    }

    /// Document 01's order.
    pub fn in_bytes(&self) -> String {
        hex_of(&self.bytes)
    }
}

/// Two digits for each byte, as they come.
pub fn hex_of<'a>(bytes: impl IntoIterator<Item = &'a u8>) -> String {
    bytes.into_iter().map(|byte| format!("{byte:02X}")).collect()
}

/// The digits of a table, most significant first; n is told, or follows from how many they are.
pub fn read_hex(digits: &str, n: Option<usize>) -> Result<Table, Trouble> {
    let values = digits_of(digits)?;
    let n = n.map_or_else(|| inputs_of(values.len()), Ok)?;
    let wanted = if n < 3 { 1 } else { 2 * table_length(n) };
    // Up to three inputs the table is one byte, and a digit too many in front of it must be 0.
    if values.len() != wanted && !(n < 3 && values.len() == 2 && values[0] == 0) {
        let given = values.len();
        return Err(Trouble::line(format!("{given} digits: a table of {n} inputs has {wanted}")));
    }
    let mut table = Table { n, bytes: vec![0; values.len().max(2) / 2] };
    for (at, value) in values.iter().rev().enumerate() {
        table.bytes[at / 2] |= value << (4 * (at % 2));
    }
    Ok(table)
}

/// The bytes of a table: assignment x in bit x mod 8 of byte x div 8.
pub fn read_bytes(digits: &str, n: Option<usize>) -> Result<Table, Trouble> {
    let values = digits_of(digits)?;
    if values.len() % 2 == 1 {
        return Err(Trouble::line("half a byte: two digits for each"));
    }
    let n = n.map_or_else(|| inputs_of(values.len()), Ok)?;
    Ok(Table { n, bytes: values.chunks(2).map(|pair| pair[0] << 4 | pair[1]).collect() })
}

fn digits_of(digits: &str) -> Result<Vec<u8>, Trouble> {
    let digits = digits.chars().filter(|c| !c.is_whitespace() && *c != '_');
    let values: Option<Vec<u8>> = digits.map(|c| c.to_digit(16).map(|d| d as u8)).collect();
    match values {
        Some(values) if !values.is_empty() => Ok(values),
        _ => Err(Trouble::line("no hexadecimal number")),
    }
}

/// How many inputs a table of so many digits has: 2 of one digit, else as many as its bits ask for.
fn inputs_of(digits: usize) -> Result<usize, Trouble> {
    (2..=INPUTS).find(|n| 1 << (n - 2) == digits).ok_or_else(|| {
        Trouble::line(format!("{digits} digits: a table has 1, 2, 4, and so on to 16,384"))
    })
}

#[cfg(test)]
mod tests {
    use super::*;

    #[test]
    fn both_orders() {
        let selector = read_bytes("AAAAF0F0CCCC00FF", None).ok().unwrap();
        assert_eq!((selector.n, selector.hex().as_str()), (6, "FF00CCCCF0F0AAAA"));
        assert_eq!(read_hex("ff00ccccf0f0aaaa", None).ok(), Some(selector));
    }

    #[test]
    fn short_tables() {
        assert_eq!(read_hex("8", None).ok(), Some(Table { n: 2, bytes: vec![8] }));
        assert_eq!(read_hex("02", Some(1)).ok(), Some(Table { n: 1, bytes: vec![2] }));
        assert_eq!(Table { n: 1, bytes: vec![2] }.hex(), "2");
        assert!(read_hex("123", None).is_err() && read_hex("80", Some(4)).is_err());
        assert!(read_hex("", None).is_err() && read_bytes("8", None).is_err());
    }
}
