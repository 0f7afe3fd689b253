//! 01 "The sheet": the printed form.

use crate::charges::{Sheet, Side, ZoneFigures};
use crate::file::without_padding;

/// 01 "The sheet": the lines `C`, `G`, `D`, `L`, `R`, each ended by a line feed, fields parted by one space.
pub fn print(sheet: &Sheet) -> Vec<u8> {
    let mut text = format!("C {}\n", joined(sheet.c.iter().map(|c| c.0)));
    zone_lines(&mut text, 'G', &sheet.generation);
    zone_lines(&mut text, 'D', &sheet.demand);
    for line in &sheet.local {
        let name = String::from_utf8_lossy(without_padding(&line.name));
        text += &format!("L {} {} {}\n", name, line.metres.0, line.tariff.0);
    }
    text += &format!("R {} {}\n", sheet.generation.remainder, sheet.demand.remainder);
    text.into_bytes()
}

/// 01 "The sheet": one line a zone in rising order; "A zone with no kilowatts prints its letter, number and `-`". 02, CR 5:
/// the three figures of each background, then residual and total. 02, CR 6: "with shared metres and tariff after" year round's.
fn zone_lines(text: &mut String, letter: char, side: &Side) {
    for (place, zone) in side.zones.iter().enumerate() {
        let number = place + 1;
        *text += &match zone {
            None => format!("{letter} {number} -\n"),
            Some(line) => {
                let figures = line.figures.iter().flat_map(printed_figures);
                format!("{letter} {number} {}\n", joined(figures.chain([line.residual.0, line.total.0])))
            }
        };
    }
}

/// 01 "The sheet": "zonal metres, metres after C, tariff"; 02, CR 6: then shared metres and tariff, where they are split.
fn printed_figures(figures: &ZoneFigures) -> Vec<i128> {
    let own = [figures.metres.0, figures.after_c.0, figures.tariff.0];
    let shared = figures.shared.iter().flat_map(|shared| [shared.metres.0, shared.tariff.0]);
    own.into_iter().chain(shared).collect()
}

/// 01 "The sheet": "fields are parted by one space".
fn joined(numbers: impl Iterator<Item = i128>) -> String {
    numbers.map(|number| number.to_string()).collect::<Vec<_>>().join(" ")
}
