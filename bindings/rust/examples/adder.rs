use minorder::{exact, Tables};

fn main() -> Result<(), minorder::Error> {
    // the sum of two numbers of 4 bits, bit by bit
    let sum = |point: usize, output: usize| ((point & 15) + (point >> 4)) >> output & 1 == 1;
    let found = exact(&Tables::from_fn(8, 5, sum)?)?;
    println!("{found}");
    Ok(())
}
