//! The Allan deviation of a short record. A refusal of any call ends the program.

fn main() -> Result<(), ploegelster::Refusal> {
    let sum = ploegelster::allan_sum(&[0, 1, 4, 9, 16, 25], 1)?;
    let r = ploegelster::allan_deviation(sum.total, 1, sum.count)?;
    println!("Allan deviation {:.6} ps per basic interval", r as f64 / ploegelster::UNITS_A_PICOSECOND as f64);
    Ok(())
}
