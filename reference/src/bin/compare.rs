//! Tries the two programs on generated files against the reference.

use std::process::ExitCode;

use reference::compare::{Options, Tally, try_program};
use reference::locks::Locks;
use reference::loops::Loops;

fn compare(options: &Options) -> std::io::Result<bool> {
    let loops = try_program::<Loops>(options, &options.loops)?;
    let locks = try_program::<Locks>(options, &options.locks)?;
    let reached = report("loops", &loops) & report("locks", &locks);
    let differ = loops.differ + locks.differ;
    println!("compare: {} files, {differ} differ", loops.files + locks.files);
    Ok(reached && differ == 0)
}

/// Prints what the files reached; answers whether that was everything.
fn report(program: &str, tally: &Tally) -> bool {
    print!("{}", tally.coverage.table(program));
    let missing = tally.coverage.missing();
    for row in &missing {
        println!("{program}: never reached: {row}");
    }
    missing.is_empty()
}

fn main() -> ExitCode {
    let done = Options::parse(std::env::args().skip(1))
        .and_then(|options| compare(&options).map_err(|error| error.to_string()));
    match done {
        Ok(true) => ExitCode::SUCCESS,
        Ok(false) => ExitCode::FAILURE,
        Err(error) => {
            eprintln!("{error}");
            ExitCode::from(2)
        }
    }
}
