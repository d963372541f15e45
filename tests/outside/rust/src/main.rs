//! A project of somebody else that depends on bindings/rust by its path.
use locator::{Field, ROOTS};

fn main() -> Result<(), Box<dyn std::error::Error>> {
    let (mut roots, mut mults) = ([0; ROOTS], [0; ROOTS]);
    let found = Field::Four.solve(&[6, 7, 0, 1], 1, &mut roots, &mut mults)?;
    println!("{:?} {}", found.roots.distinct, locator::inverse(5, 1).unwrap_err());
    Ok(())
}
