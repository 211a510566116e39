//! Reads totals of a few bytes into a map of their sums, and writes another.
use readings::{Refusal, Totals, TotalsLists, TotalsSumsEntry};
use std::collections::BTreeMap;

fn sums_of(bytes: &[u8]) -> Result<BTreeMap<&str, i32>, Refusal> {
    Totals::read(bytes)?;
    Totals::sums(bytes).map(|it| it.map(|it| (it.key(), it.value()))).collect()
}

fn with_sums(sums: &BTreeMap<&str, i32>) -> Vec<u8> {
    let mut entries = Vec::new();
    for (key, value) in sums {
        let mut entry = TotalsSumsEntry::new();
        entry.set_key(key);
        entry.set_value(*value);
        entries.push(entry);
    }
    Totals::new().to_vec(&TotalsLists::new(&entries, &[], &[]))
}

fn main() -> Result<(), Refusal> {
    let bytes = b"\x0A\x07\x0A\x03rof\x10\x05\x0A\x06\x0A\x02up\x10\x09";
    let mut sums = sums_of(bytes)?;
    println!("{sums:?}");
    sums.remove("rof");
    println!("{:02X?}", with_sums(&sums));
    Ok(())
}
