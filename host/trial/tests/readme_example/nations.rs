use chronicle::Record;

fn main() -> Result<(), Box<dyn std::error::Error>> {
    let record = Record::open(std::fs::read("samples/isles.atl")?)?;
    let chronicle = record.chronicle()?;
    for nation in chronicle.nations() {
        println!("{}, now {}: {} entries", nation.initial, nation.latest, nation.entries.len());
    }
    let found = chronicle.resolve("TYR".parse()?, "1460-02-28".parse()?)?;
    println!("TYR of 1460 is {}", found.map_or("nobody".into(), |found| found.current.to_string()));
    print!("{}", record.page(&["IRE".parse()?, "GBR".parse()?])?);
    Ok(())
}
