//! Texts: every file comes back, faults name their lines.

mod common;

use common::*;
use reference::file::{Case, Edition, Version};
use reference::random::{random, random_of_edition_2, random_of_version_2, spoiled, Chance};
use reference::text::{make, share, show};

/// Showing and making again gives the same bytes.
fn comes_back(file: &[u8]) {
    let text = show(file);
    match make(text.as_bytes()) {
        Ok(made) => assert!(made == file, "another file from\n{text}"),
        Err(faults) => panic!("{faults:?} in\n{text}"),
    }
}

/// The lines of a text that aren't comments or empty.
fn lines(text: &str) -> Vec<&str> {
    text.lines().filter(|line| !line.is_empty() && !line.starts_with('#')).collect()
}

/// A case by chance, so many numbers for each kind: version 1, version 2, edition 2.
fn by_chance(seed: u64, each: u64, most_nodes: u64) -> Case {
    match seed / each {
        0 => random(seed, most_nodes),
        1 => random_of_version_2(seed, most_nodes),
        _ => random_of_edition_2(seed, most_nodes),
    }
}

#[test]
fn whole_files_of_any_content_come_back() {
    for seed in 0..120 {
        let case = by_chance(seed, 40, 9);
        let (file, trailer) = (case.bytes(), case.edition.trailer_size());
        comes_back(&file);
        // Any bytes in the tables and solutions: still a whole file, whatever 2 to 11 say.
        let chance = &mut Chance(seed);
        let mut wild = file.clone();
        for byte in &mut wild[..file.len() - trailer] {
            *byte = chance.bits() as u8;
        }
        wild[52..56].copy_from_slice(&case.edition.zero().to_le_bytes());
        comes_back(&wild);
        assert!(!show(&wild).contains("not whole"));
        for _ in 0..20 {
            let mut odd = file.clone();
            let place = chance.within(0, (file.len() - trailer) as u64 - 1) as usize;
            odd[place] = chance.of(b" \"\\#\t\n\0\xff_aA");
            comes_back(&odd);
        }
    }
}

#[test]
fn spoiled_cases_come_back_and_are_judged() {
    for seed in 0..60 {
        let case = by_chance(seed, 20, 8);
        for spoil in 0..40 {
            let spoiled = spoiled(&case, 100 * seed + spoil);
            comes_back(&spoiled.bytes());
            let output = printed(&spoiled);
            assert!(output.starts_with("C ") || output.starts_with("refused "), "{output}");
        }
    }
}

#[test]
fn damaged_files_come_back() {
    for name in ["KILN", "ALONE", "KILN_2", "SUBSEA"] {
        let file = named_case(name).bytes();
        for length in 0..file.len() {
            comes_back(&file[..length]);
        }
        for place in file.len() - 64..file.len() {
            for change in [1, 2, 3, 12] {
                let mut damaged = file.clone();
                damaged[place] ^= change;
                comes_back(&damaged);
            }
        }
        comes_back(&[&file[..], b"more"].concat());
        comes_back(&[&file[..], &file[..]].concat());
    }
    let chance = &mut Chance(7);
    for length in 0..200 {
        comes_back(&(0..length).map(|_| chance.bits() as u8).collect::<Vec<u8>>());
    }
    for largest in [reference::largest::largest(), reference::largest::largest_of_version_2()] {
        comes_back(&largest.bytes());
        comes_back(&[&largest.bytes()[..], &[0]].concat());
    }
}

#[test]
fn every_stored_case_comes_back() {
    reference::replay::cases().iter().for_each(|case| comes_back(&case.file));
}

/// Showing a share file and making it again gives the same bytes.
fn share_comes_back(file: &[u8]) {
    let text = share::show(file);
    assert_eq!(share::make(text.as_bytes()).as_deref(), Ok(file), "{text}");
}

#[test]
fn every_stored_share_file_comes_back() {
    reference::replay::cases().iter().for_each(|case| share_comes_back(&case.share));
}

#[test]
fn any_bytes_of_a_share_file_come_back() {
    let chance = &mut Chance(6);
    for length in 0..400 {
        share_comes_back(&(0..length).map(|_| chance.bits() as u8).collect::<Vec<u8>>());
    }
}

#[test]
fn share_files_as_texts() {
    let text = share::show(&folder_file("TUT3_SHARE.share"));
    let tutorial = String::from_utf8(folder_file("TUT3_SHARE.share.txt")).unwrap();
    assert_eq!(lines(&text), lines(&tutorial));
    assert_eq!(
        text,
        "\
# zone, the next one inward: 0 for the centre and for zones without TEC
zone 1 2
zone 2 4
zone 3 0
zone 4 0

# plant type, load factor in thousandths
load 1 385
load 2 763
load 3 0
load 4 424
load 5 107
load 6 3
load 7 486
"
    );
    assert_eq!(share::show(&[]), "# empty, as if there were none\nbytes\n");
    assert_eq!(
        share::show(&[1, 2, 255]),
        "# 3 bytes, a wrong length: refused 16 0 0 in edition 2\nbytes\nbytes 0102ff\n"
    );
    // As long as a file of 1 zone and of 32, and one number shorter and longer than these.
    for (length, word) in [(28, "bytes"), (32, "zone"), (156, "zone"), (160, "bytes")] {
        assert!(share::show(&vec![0; length]).contains(&format!("\n{word}")), "{length}");
    }
}

/// The faults of the tutorial's share text with one line put for another.
fn share_faults(line: &str, instead: &str) -> Vec<String> {
    let text = String::from_utf8(folder_file("TUT3_SHARE.share.txt")).unwrap();
    let text: Vec<&str> = text.lines().map(|old| if old == line { instead } else { old }).collect();
    assert!(text.contains(&instead), "no line {line}");
    share::make(text.join("\n").as_bytes()).err().unwrap_or_default().iter().map(|fault| fault.to_string()).collect()
}

#[test]
fn faults_of_share_texts_name_their_lines() {
    let (zone, load) = ("zone 2 4", "load 7 486");
    assert_eq!(share_faults(zone, zone), Vec::<String>::new());
    assert_eq!(share_faults(zone, "zone 2 4_294_967_295 # none"), Vec::<String>::new());
    assert_eq!(share_faults(zone, "zone 2")[0], "line 6: 1 fields where 2 are wanted: zone, the next one inward");
    assert_eq!(share_faults(zone, "zone 2 x")[0], "line 6: x isn't a whole number");
    assert_eq!(share_faults(zone, "zone 2 4294967296")[0], "line 6: 4294967296 doesn't fit u32");
    assert_eq!(share_faults(zone, "next 2 4")[0], "line 6: unknown word next");
    assert_eq!(
        share_faults(zone, "zone 3 4")[0],
        "line 6: zone 3 where 2 comes next: they stand in rising order from 1"
    );
    assert_eq!(
        share_faults("zone 1 2", "zone 0 2")[0],
        "line 5: zone 0 where 1 comes next: they stand in rising order from 1"
    );
    assert_eq!(share_faults(zone, "zone 33 4")[0], "line 6: zone 33: there are at most 32");
    assert_eq!(share_faults(load, "load 8 486"), ["line 17: plant type 8: there are at most 7"]);
    assert_eq!(share_faults(load, ""), ["line 17: 6 load factors where 7 are wanted, one a plant type"]);
    assert_eq!(share_faults(load, "bytes 00"), ["line 17: bytes stand alone: no other lines beside them"]);
    assert_eq!(share_faults(load, "bytes 0"), ["line 17: 0 isn't pairs of hexadecimal digits"]);
    assert_eq!(share::make(b"").unwrap_err()[0].to_string(), "line 1: no zone stands here");
    assert_eq!(share::make(b"bytes"), Ok(vec![]));
}

#[test]
fn damage_is_told_by_its_own_words() {
    let whole = show(&kiln().bytes());
    let difference = |file: &[u8]| -> Vec<String> {
        let text = show(file);
        let whole = lines(&whole);
        lines(&text).into_iter().filter(|line| !whole.contains(line)).map(str::to_string).collect()
    };
    let file = kiln().bytes();
    let trailer = file.len() - 64;
    let changed = |place: usize, to: u8| {
        let mut changed = file.clone();
        changed[place] = to;
        changed
    };
    assert_eq!(difference(&file), Vec::<String>::new());
    assert_eq!(difference(&changed(trailer + 56, 3)), ["version 3"]);
    assert_eq!(difference(&changed(trailer + 56, 2)), ["version 2", "circuit_bytes 44"]);
    assert_eq!(difference(&changed(trailer + 60, 0)), ["length 512"]);
    assert_eq!(difference(&changed(trailer, 9)), ["offset settings 9"]);
    assert_eq!(difference(&changed(trailer + 12, 4)), ["count nodes 4"]);
    assert_eq!(difference(&changed(52, 1)), ["zero 1"]);
    assert_eq!(difference(&[&file[..], b"\x01\xab"].concat()), ["tail 01ab"]);
    // Cut in the middle: what the shapes suggest stands in comments.
    let cut = show(&file[..300]);
    assert!(cut.contains("\n# node NODC 1 1 120000\n"), "{cut}");
    assert!(cut.contains("\n# circuit NODA NODC 400 200 34000 0 0\n"), "{cut}");
    assert!(cut.contains("\n# station GEN_1 NODA 7 200000\n"), "{cut}");
}

#[test]
fn damage_of_version_2_is_told_by_its_own_words() {
    let file = named_case("KILN_2").bytes();
    let trailer = file.len() - 64;
    let difference = |place: usize, to: u8| -> (Vec<String>, Vec<String>) {
        let mut changed = file.clone();
        changed[place] = to;
        let texts = [show(&file), show(&changed)];
        let [whole, other] = [lines(&texts[0]), lines(&texts[1])];
        let only = |these: &[&str], those: &[&str]| -> Vec<String> {
            these.iter().filter(|line| !those.contains(line)).map(|line| line.to_string()).collect()
        };
        (only(&whole, &other), only(&other, &whole))
    };
    let said = |before: &[&str], after: &[&str]| {
        [before, after].map(|lines| lines.iter().map(|line| line.to_string()).collect::<Vec<_>>()).into()
    };
    assert_eq!(difference(trailer + 56, 1), said(&["version 2"], &["version 1", "circuit_bytes 48"]));
    assert_eq!(difference(trailer + 56, 7), said(&["version 2"], &["version 7"]));
    assert_eq!(difference(trailer + 20, 4), said(&[], &["count circuits 4"]));
    assert_eq!(difference(trailer + 24, 9), said(&[], &["offset stations 265"]));
    let text = show(&file[..350]);
    assert!(text.contains("\n# version 2\n"), "{text}");
    assert!(text.contains("\n# circuit NODA NODC 400 200 34000 0 0 0\n"), "{text}");
    assert!(text.contains("\n# station GEN_2 NODB 7 100000\n"), "{text}");
}

#[test]
fn a_change_is_one_line() {
    let before = show(&kiln().bytes());
    let mut case = kiln();
    case.nodes[1].demand = 31_000;
    let after = show(&case.bytes());
    let other: Vec<(&str, &str)> = before.lines().zip(after.lines()).filter(|(a, b)| a != b).collect();
    assert_eq!(other, [("node NODB 1 1 30000", "node NODB 1 1 31000")]);
}

/// The faults of KILN's text with one line put for another.
fn faults(line: &str, instead: &str) -> Vec<String> {
    let text = String::from_utf8(folder_file("KILN.txt")).unwrap();
    let text: Vec<&str> = text.lines().map(|old| if old == line { instead } else { old }).collect();
    assert!(text.contains(&instead), "no line {line}");
    make(text.join("\n").as_bytes()).err().unwrap_or_default().iter().map(|fault| fault.to_string()).collect()
}

#[test]
fn faults_name_their_lines() {
    let node = "node NODB 1 1 30000";
    assert_eq!(faults(node, node), Vec::<String>::new());
    assert_eq!(
        faults(node, "node NODB 1 1"),
        ["line 20: 3 fields where 4 are wanted: name, generation zone, demand zone, demand"]
    );
    assert_eq!(
        faults(node, "node nodb 1 1 30000"),
        ["line 20: nodb isn't 1 to 12 of A-Z, 0-9 and _ (put any other name in quotes)"]
    );
    assert_eq!(faults(node, "node NODB 1 1 x"), ["line 20: x isn't a whole number"]);
    assert_eq!(faults(node, "node NODB 1 1 4294967296"), ["line 20: 4294967296 doesn't fit u32"]);
    assert_eq!(faults(node, "node NODB 1 1 -1"), ["line 20: -1 doesn't fit u32"]);
    assert_eq!(faults(node, "knot NODB 1 1 30000"), ["line 20: unknown word knot"]);
    assert_eq!(faults(node, "node \"NODB 1 1 30000"), ["line 20: a quote isn't closed"]);
    assert_eq!(faults("p 500", "p 500 1"), ["line 5: 2 fields where 1 are wanted: one number"]);
    assert_eq!(faults("p 500", "constant 500"), ["line 6: constant a second time"]);
    assert_eq!(faults("p 500", "version x"), ["line 5: x isn't a whole number"]);
    let last = "local 0 # flow NODA NODC";
    assert_eq!(faults(last, ""), ["line 51: local has 5 rows, nodes and circuits are 6"]);
    assert_eq!(faults(last, "as_is"), Vec::<String>::new());
    assert_eq!(faults("p 500", ""), ["line 51: settings left out: p"]);
    assert_eq!(faults(node, "bytes 00"), ["line 51: bytes stand alone: no other lines beside them"]);
}

/// KILN's text with these lines behind it, and its circuits' lines ended so.
fn kiln_text(ends: [&str; 3], more: &str) -> String {
    let mut text = String::from_utf8(folder_file("KILN.txt")).unwrap();
    for (row, end) in ["400 100 10000 0 0\n", "400 100 20000 0 0\n", "400 200 34000 0 0\n"].into_iter().zip(ends) {
        assert!(text.contains(row));
        text = text.replace(row, &format!("{}{end}\n", row.trim_end()));
    }
    text + more
}

#[test]
fn the_version_is_said_by_a_factor_or_by_its_word() {
    let made = |ends, more| make(kiln_text(ends, more).as_bytes()).unwrap();
    let version_2 = named_case("KILN_2").bytes();
    assert_eq!(made(["", "", ""], ""), kiln().bytes());
    assert_eq!(made(["", "", ""], "version 1\n"), kiln().bytes());
    assert_eq!(made([" 0", " 0", " 0"], ""), version_2);
    assert_eq!(made(["", " 0", ""], ""), version_2);
    assert_eq!(made(["", "", ""], "version 2\n"), version_2);
    assert_eq!(made([" 0", "", ""], "version 2\n"), version_2);
    assert_eq!(made(["", "", ""], "version 2\ncircuit_bytes 48\n"), version_2);
    let own = made(["", " 1_500", " 30e3"], "");
    let case = reference::file::whole_case(&own).unwrap();
    assert_eq!(case.version, Version::Two);
    assert_eq!(case.circuits.iter().map(|row| row.factor).collect::<Vec<_>>(), [0, 1_500, 30_000]);
    // Nothing but the trailer's number: rows by their factors.
    let other = |file: Vec<u8>, number: u8| {
        let mut file = file;
        let place = file.len() - 8;
        file[place] = number;
        file
    };
    assert_eq!(made(["", "", ""], "version 9\n"), other(kiln().bytes(), 9));
    assert_eq!(made([" 0", "", ""], "version 9\n"), other(version_2.clone(), 9));
    assert_eq!(made(["", "", ""], "version 2\ncircuit_bytes 44\n"), other(kiln().bytes(), 2));
    assert_eq!(made([" 0", "", ""], "version 1\ncircuit_bytes 48\n"), other(version_2, 1));
}

#[test]
fn faults_of_factors_name_their_lines() {
    let said = |ends, more| {
        let faults = make(kiln_text(ends, more).as_bytes()).unwrap_err();
        faults.iter().map(|fault| fault.to_string()).collect::<Vec<_>>()
    };
    let no_place = |line: u32| vec![format!("line {line}: a factor, and rows of version 1 have no place for one")];
    assert_eq!(said(["", " 2000", " 0"], "version 1\n"), no_place(25));
    assert_eq!(said(["", "", " 0"], "version 1\n"), no_place(26));
    assert_eq!(said(["", "", " 0"], "version 2\ncircuit_bytes 44\n"), no_place(26));
    assert_eq!(said(["", " x", ""], ""), ["line 25: x isn't a whole number"]);
    assert_eq!(said(["", " -1", ""], ""), ["line 25: -1 doesn't fit u32"]);
    assert_eq!(
        said(["", " 0 0", ""], ""),
        ["line 25: 9 fields where 7 are wanted: first node, second node, voltage, x, overhead, cable, mark, and maybe a factor"]
    );
    assert_eq!(said(["", "", ""], "circuit_bytes 46\n"), ["line 52: a circuit row has 44 bytes, or 48 in version 2"]);
    assert_eq!(said(["", "", ""], "version 2\nversion 2\n"), ["line 53: version a second time"]);
}

#[test]
fn numbers_and_names_as_one_writes_them() {
    let file = kiln().bytes();
    let text = String::from_utf8(folder_file("KILN.txt")).unwrap();
    let other = text.replace("station GEN_1 NODA 7 200000", "  station  GEN_1\t\"NODA\"   7 200_000# tight");
    assert_ne!(text, other);
    assert_eq!(make(other.as_bytes()), Ok(file.clone()));
    assert_eq!(make(text.replace('\n', "\r\n").as_bytes()), Ok(file));
    let odd = text.replace("node NODB ", "node \"no #\\x00b\\xff\" ");
    let case = reference::text::parse(odd.as_bytes()).unwrap().case;
    assert_eq!(&case.nodes[1].name, b"no #\0b\xff     ");
    assert!(show(&case.bytes()).contains("\nnode \"no #\\x00b\\xff\" 1 1 30000\n"));
}

#[test]
fn words_of_damage_make_what_they_say() {
    let text = String::from_utf8(folder_file("KILN.txt")).unwrap();
    let whole = kiln().bytes();
    let made = |more: &str| make(format!("{text}{more}\n").as_bytes()).unwrap();
    assert_eq!(made("cut 3"), whole[..537]);
    assert_eq!(made("tail 0102"), [&whole[..], &[1, 2]].concat());
    assert_eq!(made("cut 540"), []);
    let case =
        |file: Vec<u8>| -> Vec<usize> { (0..whole.len()).filter(|place| file[*place] != whole[*place]).collect() };
    assert_eq!(case(made("version 7")), [532]);
    assert_eq!(case(made("length 541")), [536]);
    assert_eq!(case(made("offset base 0")), [476 + 32, 476 + 33]);
    assert_eq!(case(made("count local 7")), [476 + 52]);
    assert_eq!(case(made("zero 5")), [52]);
    assert_eq!(make(b"bytes 00ff\nbytes 01"), Ok(vec![0, 255, 1]));
    assert_eq!(make(b"bytes"), Ok(vec![]));
}

#[test]
fn solutions_of_any_count_stand_as_is() {
    let mut case = kiln();
    case.runs[1].push(77);
    case.runs[2].clear();
    comes_back(&case.bytes());
    assert!(show(&case.bytes()).ends_with("\nas_is\n"));
    let none = Case { settings: settings(), ..Case::default() };
    comes_back(&none.bytes());
}

/// SEVEN's text with these lines behind it.
fn seven_text(more: &str) -> Vec<u8> {
    [folder_file("SEVEN.txt"), more.as_bytes().to_vec()].concat()
}

#[test]
fn the_edition_is_said_by_its_word() {
    let seven = named_case("SEVEN");
    assert_eq!((seven.edition, seven.settings.zero, seven.version), (Edition::Two, 2, Version::Two));
    assert_eq!(make(&seven_text("version 2\n")), Ok(seven.bytes()));
    let shown = show(&seven.bytes());
    assert_eq!(lines(&shown)[..2], ["edition 2", "version 2"]);
    assert!(lines(&shown).iter().all(|line| !line.starts_with("zero")));
    for (word, first) in reference::text::SOLUTIONS.iter().zip(["122", "64", "0", "3125", "8"]) {
        let line = shown.lines().find(|line| line.starts_with(&format!("{word} "))).unwrap();
        assert!(line.starts_with(&format!("{word} {first}")), "{line}");
    }
    // Of edition 1 without the word, and with it.
    assert_eq!(make(kiln_text(["", "", ""], "edition 1\n").as_bytes()), Ok(kiln().bytes()));
    assert_eq!(lines(&show(&kiln().bytes()))[0], "generation_zones 1");
}

#[test]
fn odd_files_of_either_edition_are_said() {
    let seven = named_case("SEVEN");
    let changed = |case: &Case, change: fn(&mut Case)| {
        let mut case = case.clone();
        change(&mut case);
        case.bytes()
    };
    // A trailer of 80 bytes on edition 1, one of 64 on edition 2, and editions there are none of.
    let long = changed(&seven, |case| case.settings.zero = 0);
    assert_eq!(make(&seven_text("zero 0\n")), Ok(long.clone()));
    let short = changed(&named_case("KILN_2"), |case| case.settings.zero = 2);
    assert_eq!(make(kiln_text(["", "", ""], "version 2\nzero 2\n").as_bytes()), Ok(short.clone()));
    let none = changed(&seven, |case| case.settings.zero = 1);
    assert_eq!(make(&seven_text("zero 1\n")), Ok(none.clone()));
    let empty = changed(&seven, |case| case.runs[3].clear());
    let mut in_version_1 = named_case("TUT3_E2");
    in_version_1.version = Version::One;
    let text = [folder_file("TUT3_E2.txt"), b"version 1\n".to_vec()].concat();
    assert_eq!(make(&text), Ok(in_version_1.bytes()));
    for file in [long, short, none, empty, in_version_1.bytes()] {
        comes_back(&file);
        let text = show(&file);
        assert!(text.starts_with("# not whole: refused 1 0 0\n"), "{text}");
        assert!(!text.contains("\nbytes"), "{text}");
    }
    let tail = [seven.bytes(), vec![1, 2]].concat();
    assert!(show(&tail).ends_with("\ntail 0102\n"));
    comes_back(&tail);
    for (start, end) in [(0, 0), (0, 127), (1, 1_128), (500, 1_128), (0, 1_127)] {
        comes_back(&seven.bytes()[start..end]);
    }
    // Fields of the trailer, the peak sections' too.
    let file = seven.bytes();
    for place in file.len() - 80..file.len() {
        let mut odd = file.clone();
        odd[place] ^= 1;
        comes_back(&odd);
    }
    let offset = make(&seven_text("offset peak_wider 7\ncount peak_base 3\n")).unwrap();
    assert_eq!((offset[file.len() - 16], offset[file.len() - 20]), (7, 3));
}

#[test]
fn faults_of_editions_name_their_lines() {
    let said = |text: Vec<u8>| make(&text).unwrap_err().iter().map(|fault| fault.to_string()).collect::<Vec<_>>();
    let kiln = |more: &str| kiln_text(["", "", ""], more).into_bytes();
    assert_eq!(said(kiln("edition 3\n")), ["line 52: an edition is 1 or 2"]);
    assert_eq!(said(kiln("peak_base 0\n")), ["line 52: edition 1 has no section peak_base"]);
    assert_eq!(said(kiln("count peak_wider 0\n")), ["line 52: edition 1 has no section peak_wider"]);
    assert_eq!(said(seven_text("edition 2\n"))[0].split_once(": ").unwrap().1, "edition a second time");
    assert_eq!(
        said(kiln("edition 2\n")),
        ["peak_base", "peak_wider"].map(|word| format!("line 53: {word} has 0 rows, nodes and circuits are 6"))
    );
}
