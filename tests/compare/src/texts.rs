//! What a program prints on whole files, against what the reference prints.

use crate::pipe;

/// Runs the program on `count` files, each with the text that has to come out. The file of a disagreement gets a name
/// with this ending.
pub fn compare(
    what: &str,
    ending: &str,
    count: u64,
    seed: u64,
    program: &[String],
    mut next: impl FnMut() -> Result<(Vec<u8>, String), String>,
) -> Result<(), String> {
    println!("seed {seed}, {count} {what}s, program {}", program.join(" "));
    let step = (count / 10).max(1);
    for number in 1..=count {
        let (file, expected) = next().map_err(|why| format!("{what} {number}: {why} (seed {seed})"))?;
        let (printed, _, ended) = pipe::run(program, &file).map_err(|error| format!("{}: {error}", program[0]))?;
        if printed != expected.as_bytes() || !ended {
            let name = format!("disagreement-{seed}-{number}.{ending}");
            std::fs::write(&name, &file).map_err(|error| format!("{name}: {error}"))?;
            return Err(format!(
                "DISAGREEMENT at {what} {number} (seed {seed}), ended normally: {ended}; the file is {name}"
            ));
        }
        if number % step == 0 {
            println!("{number} {what}s, no disagreement");
        }
    }
    Ok(())
}
