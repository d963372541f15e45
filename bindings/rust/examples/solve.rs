//! The job of examples/c/solve.c through the safe crate: the same output, examples/solve.expected.
use locator::{Convention, Pair, Refusal, Step, ROOTS, SLOTS};

/// Numbers with a space before each.
fn listed(numbers: &[u16]) -> String {
    numbers.iter().map(|x| format!(" {x}")).collect()
}

/// The line of a whole call: outcome, and where it is 0 the number of roots, of steps, and the roots.
fn solve(what: &str, m: u16, coeffs: &[u16], cutoff: u16) {
    match locator::solve(m, coeffs, cutoff, &mut [0; ROOTS], &mut [0; ROOTS]) {
        Ok(found) => println!(
            "{what}: 0 {} {}{}",
            found.roots.distinct.len(),
            found.steps,
            listed(found.roots.distinct)
        ),
        Err(refusal) => println!("{what}: {}", refusal.number()),
    }
}

/// The roots, each with its multiplicity.
fn repeated(what: &str, m: u16, coeffs: &[u16]) -> Result<(), Refusal> {
    let (mut roots, mut mults) = ([0; ROOTS], [0; ROOTS]);
    let found = locator::solve(m, coeffs, 2, &mut roots, &mut mults)?;
    let pairs: String = found
        .roots
        .pairs()
        .map(|(r, e)| format!(" {r} times {e}"))
        .collect();
    println!("{what}:{pairs}");
    Ok(())
}

/// The slots of a table up to its last that is not 0.
fn used(table: &[u16]) -> &[u16] {
    &table[..table.iter().rposition(|&x| x != 0).map_or(0, |i| i + 1)]
}

/// The same roots in steps that can be interrupted: begin, step until done, finish.
fn split(m: u16, coeffs: &[u16], cutoff: u16) -> Result<(), Refusal> {
    let (mut table, mut roots) = ([0; SLOTS], [0; ROOTS]);
    locator::begin(m, coeffs, cutoff, &mut table)?;
    println!("begun:{}", listed(used(&table)));
    while locator::step(&mut table)? == Step::Taken {
        println!("step:{}", listed(used(&table)));
    }
    let roots = locator::finish(&table, &mut roots)?;
    println!("finished: 0 {}{}", roots.len(), listed(roots));
    Ok(())
}

/// The number of a refusal, or 0.
fn outcome<T>(answer: Result<T, Refusal>) -> u16 {
    answer.err().map_or(0, Refusal::number)
}

fn main() -> Result<(), Refusal> {
    let (cubic, unity) = ([6, 7, 0, 1], [1, 0, 0, 1]);
    let mut all = [0; 17];
    (all[1], all[16]) = (1, 1);
    solve("z^3+7z+6", 4, &cubic, 1);
    solve("z^3+1", 4, &unity, 2);
    solve("z^16+z", 4, &all, 2);
    split(4, &cubic, 1)?;
    repeated("z^2 (z+3)^3", 4, &[0, 0, 15, 5, 3, 1])?;
    let (mut list, mut mults) = ([0; ROOTS], [0; ROOTS]);
    let seen = locator::search(4, &unity, &mut list, &mut mults)?.distinct;
    println!("searched: 0 {}{}", seen.len(), listed(seen));
    if let Pair::Two(lower, upper) = locator::quadratic(4, 1, 6)? {
        println!("z^2+z+6: 0 2 {lower} {upper}");
    }
    if let Pair::Double(root) = locator::quadratic(4, 0, 2)? {
        println!("z^2+2: 0 1 {root} double");
    }
    println!(
        "places of 3: Goppa {} recorders {}",
        locator::position(4, 3, Convention::Goppa)?,
        locator::position(4, 3, Convention::Recorders)?
    );
    solve("field 5", 5, &cubic, 1);
    solve("no coefficients", 4, &[], 1);
    solve("zeros", 4, &[0, 0], 1);
    solve("16 in field 4", 4, &[16, 1], 1);
    solve("cutoff 4", 4, &cubic, 4);
    println!(
        "63 slots: {}",
        outcome(locator::solve(
            4,
            &cubic,
            1,
            &mut [0; ROOTS],
            &mut [0; ROOTS - 1]
        ))
    );
    println!("inverse of 0: {}", outcome(locator::inverse(4, 0)));
    Ok(())
}
