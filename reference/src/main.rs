//! 01 "The sheet": "The program reads one case from standard input. It prints the sheet, or `refused`, number,
//! system and row." 02, CR 6: by the file `share.bin` of the current folder, if there is one, or by the file that is named.

use reference::standard;
use std::io::ErrorKind;
use std::process::ExitCode;

/// 02, CR 6: "The file `share.bin`".
const SHARE: &str = "share.bin";

fn main() -> ExitCode {
    let words: Vec<String> = std::env::args().skip(1).collect();
    let share = match &words[..] {
        [] => share_of_the_folder(),
        [name] => std::fs::read(name).map_err(|fault| format!("{name}: {fault}")),
        _ => Err("reference [SHARE] < file: at most the name of a share file".to_string()),
    };
    // A read of standard input that fails gives no case: refusal 1, as for nothing at all.
    let case = || standard::input().unwrap_or_default();
    standard::finish(share.map(|share| reference::program_output_with_share(&case(), &share)))
}

/// 02, CR 6: the bytes of `share.bin`, none where it is "absent". A file that is there and can't be read is no absent one.
fn share_of_the_folder() -> Result<Vec<u8>, String> {
    match std::fs::read(SHARE) {
        Err(fault) if fault.kind() == ErrorKind::NotFound => Ok(Vec::new()),
        read => read.map_err(|fault| format!("{SHARE}: {fault}")),
    }
}
