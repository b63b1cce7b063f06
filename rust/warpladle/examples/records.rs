//! Prints a product's records: cargo run --example records -- FILE
fn main() -> Result<(), Box<dyn std::error::Error>> {
    let path = std::env::args().nth(1).ok_or("usage: records FILE")?;
    let bytes = std::fs::read(path)?;
    for record in warpladle::Product::judged(&bytes)?.records() {
        let start = record.times().0.map_or("-".to_string(), |time| time.to_string());
        println!("{:>10} {:5} {:8} {start} {} bytes", record.start, record.class, record.group, record.bytes.len());
    }
    Ok(())
}
