//! Prints what the second program answers: `desk` as the desk program does, `house` the cases K1 to K12.
//! `desk-script` is the input that is stored for the program `desk_main`, `desk-runs` many inputs and what is
//! printed for each; `house-image` and `house-example` are the stored examples. `leaves` answers as the
//! program `try_leaves` does, `leaves-script` is the script that is stored for it; `decisions` and
//! `decisions-script` are those of the program `try_decide`, `histories` and `histories-script` those of
//! `try_command`, `images` and `images-script` those of `try_image`. `damaged-script` makes a script for
//! `try_image` of 1,000 images and, from a seed, so many damaged images of them: what `images` and the program
//! answer to it can be compared in a long run by hand.

use std::io::{self, Read, Write};
use std::process::ExitCode;

fn main() -> ExitCode {
    let arguments: Vec<String> = std::env::args().skip(1).collect();
    let printed = match arguments.iter().map(String::as_str).collect::<Vec<_>>()[..] {
        ["desk"] => desk(),
        ["desk-script"] => print(&second::desk_script()),
        ["desk-runs"] => print(&second::desk_runs()),
        ["house"] => house(),
        ["house-image"] => print(&second::house_image()),
        ["house-example"] => print(&second::house_example()),
        ["leaves"] => answer(second::leaves),
        ["leaves-script"] => print(&second::leaves_script()),
        ["decisions"] => answer(second::decisions),
        ["decisions-script"] => print(&second::decisions_script()),
        ["histories"] => answer(second::histories),
        ["histories-script"] => print(&second::histories_script()),
        ["images"] => answer(second::images),
        ["images-script"] => print(&second::images_script()),
        ["damaged-script", count, seed] => damaged_script(count, seed),
        _ => {
            eprintln!("usage: second-run desk < input | desk-script | desk-runs | house | house-image");
            eprintln!("       | house-example | leaves < script | leaves-script | decisions < script");
            eprintln!("       | decisions-script | histories < script | histories-script | images < script");
            eprintln!("       | images-script | damaged-script COUNT SEED");
            return ExitCode::from(2);
        }
    };
    match printed {
        Ok(true) => ExitCode::SUCCESS,
        Ok(false) => ExitCode::FAILURE,
        Err(error) => {
            eprintln!("second-run: {error}");
            ExitCode::FAILURE
        }
    }
}

fn desk() -> io::Result<bool> {
    let mut input = Vec::new();
    io::stdin().read_to_end(&mut input)?;
    io::stdout().write_all(&second::desk(&input))?;
    Ok(true)
}

fn print(bytes: &[u8]) -> io::Result<bool> {
    io::stdout().write_all(bytes)?;
    Ok(true)
}

/// What a program answers to the script on standard input.
fn answer(program: impl Fn(&[u8]) -> String) -> io::Result<bool> {
    let mut script = Vec::new();
    io::stdin().read_to_end(&mut script)?;
    print(program(&script).as_bytes())
}

fn wrong(what: String) -> io::Error {
    io::Error::new(io::ErrorKind::InvalidInput, what)
}

fn number(given: &str) -> io::Result<u32> {
    given.parse().map_err(|_| wrong(format!("{given} is no number")))
}

fn damaged_script(count: &str, seed: &str) -> io::Result<bool> {
    print(&second::damaged_script(number(count)?, number(seed)?.into()))
}

fn house() -> io::Result<bool> {
    let mut output = io::stdout().lock();
    let mut all_agree = true;
    for case in second::house::cases() {
        let agrees = case.found == case.expected;
        all_agree &= agrees;
        let mark = if agrees { "ok" } else { "DIFFERS" };
        writeln!(
            output,
            "{:<4} {:<56} {:<26} {:<26} {mark}",
            case.case, case.done, case.expected, case.found
        )?;
    }
    Ok(all_agree)
}
