//! `sheets DIR`: draws two sample sheets of each kind as PBM files. They are
//! the same ones every time, so that figures can be compared.

mod answers;
mod canvas;
mod font;
mod halftone;
mod pen;
mod ruled;
mod slip;
mod worksheet;

use canvas::Canvas;
use std::path::Path;
use std::process::ExitCode;

type Draw = fn(usize) -> Canvas;

const KINDS: [(&str, Draw); 5] = [
    ("worksheet", worksheet::draw),
    ("ruled", ruled::draw),
    ("answers", answers::draw),
    ("halftone", halftone::draw),
    ("slip", slip::draw),
];

fn main() -> ExitCode {
    let words: Vec<_> = std::env::args_os().skip(1).collect();
    let [directory] = words.as_slice() else {
        eprintln!("sheets DIR: draws the sample sheets into a directory");
        return ExitCode::from(2);
    };
    match draw_all(Path::new(directory)) {
        Ok(()) => ExitCode::SUCCESS,
        Err(error) => {
            eprintln!("sheets: {}: {error}", Path::new(directory).display());
            ExitCode::from(1)
        }
    }
}

fn draw_all(directory: &Path) -> std::io::Result<()> {
    std::fs::create_dir_all(directory)?;
    for (kind, draw) in KINDS {
        for number in 1..=2 {
            let path = directory.join(format!("{kind}-{number}.pbm"));
            std::fs::write(path, draw(number).pbm())?;
        }
    }
    Ok(())
}

#[cfg(test)]
mod tests {
    use super::KINDS;

    #[test]
    fn sheets_are_the_same_each_time_and_differ_from_each_other() {
        for (kind, draw) in KINDS {
            let (first, second) = (draw(1), draw(2));
            assert!(first == draw(1), "{kind}");
            assert!(first != second, "{kind}");
            for sheet in [first, second] {
                let pbm = sheet.pbm();
                let black: u32 = pbm[13..].iter().map(|byte| byte.count_ones()).sum();
                let percent = black as usize * 100 / (pbm.len() * 8);
                assert!((1..60).contains(&percent), "{kind}: {percent}");
            }
        }
    }
}
