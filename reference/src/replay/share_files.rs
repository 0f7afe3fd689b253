//! 02, CR 6: share files that 16 refuses, with every row, beside sound ones; files in edition 1, where they aren't looked at; the
//! order of 16 among all refusals.

use super::bases::{kiln, kiln_2, named_case, LINK_TEXTS};
use super::edition_2::kiln_twin;
use super::orders::said;
use super::systems::{doubtful, Fault, FAULTS, TABLES};
use super::zones::{all_zones, level, one_zone, share, share_of, six_zones, LOAD};
use super::{changed, solved, List, Told, LONGEST_SHARE};
use crate::file::Case;

/// 02, CR 6: "row 0 for a wrong length or load factor".
const ROW_0: Told = sixteen(0);

/// 02, CR 6: "16, system 0".
const fn sixteen(row: u32) -> Told {
    Told::Refused(16, 0, row)
}

/// Sound files, lengths, load factors, zones with each fault, zones of type 3, edition 1, orders.
pub fn add(list: &mut List) {
    add_sound(list);
    add_lengths(list);
    add_load_factors(list);
    add_row_0_first(list);
    add_absent(list);
    add_without_tec(list);
    add_second_centres(list);
    add_circles(list);
    add_lowest(list);
    add_few_and_many_zones(list);
    add_type_3(list);
    add_edition_1(list);
    add_orders(list);
}

/// A share file for the six zones.
fn add_six(list: &mut List, next: [u32; 6], told: Told) {
    list.shared(format!("six zones, next {next:?}"), six_zones().bytes(), share(&next), told);
}

/// Chains, stars and trees over zones 1, 2, 4 and 6, each of these the centre.
fn add_sound(list: &mut List) {
    for next in [
        [2, 4, 0, 6, 0, 0],
        [0, 1, 0, 2, 0, 4],
        [6, 6, 0, 6, 0, 0],
        [0, 1, 0, 1, 0, 1],
        [4, 0, 0, 2, 0, 4],
        [6, 1, 0, 0, 0, 4],
    ] {
        add_six(list, next, Told::Sheet);
    }
}

/// "a wrong length": a byte or a number less or more, the zones' numbers or the load factors alone, the file twice, the lengths of
/// cases with other zones.
fn add_lengths(list: &mut List) {
    let chain: Vec<u32> = (2..=32).chain([0]).collect();
    let bases = [
        ("one zone", one_zone(), share(&[0]), vec![1, 4, 28, 31, 33, 36, 52, 64, LONGEST_SHARE]),
        ("six zones", six_zones(), share(&[2, 4, 0, 6, 0, 0]), vec![1, 2, 3, 4, 24, 28, 48, 51, 53, 56, 104, 156]),
        ("32 zones", all_zones(), share(&chain), vec![152, 155, 157, 160]),
    ];
    for (name, case, sound, lengths) in bases {
        for length in lengths {
            let bytes = sound.iter().copied().cycle().take(length).collect();
            list.shared(format!("{name}, a share file of {length} bytes"), case.bytes(), bytes, ROW_0);
        }
    }
    let zeros = |length: usize| vec![0; length];
    for length in [1, 51, 53] {
        let label = format!("six zones, a share file of {length} zeros");
        list.shared(label, six_zones().bytes(), zeros(length), ROW_0);
    }
    // Right by its length, and every zone with TEC a centre.
    list.shared("six zones, a share file of 52 zeros", six_zones().bytes(), zeros(52), sixteen(2));
}

/// "load factor, 0 to 1,000 thousandths": both ends and past them, of each type; type 3's, which is used nowhere, too.
fn add_load_factors(list: &mut List) {
    let of = |plant: usize, factor: u32| {
        let mut load = LOAD;
        load[plant - 1] = factor;
        share_of(&[0], load)
    };
    for plant in 1..=7 {
        for (factor, told) in [(0, Told::Sheet), (1_000, Told::Sheet), (1_001, ROW_0), (u32::MAX, ROW_0)] {
            let label = format!("one zone, load factor {factor} of type {plant}");
            list.shared(label, one_zone().bytes(), of(plant, factor), told);
        }
    }
    // The low bytes alone would pass.
    for factor in [1_024, 65_536, 1 << 24, 1 << 31] {
        let label = format!("one zone, load factor {factor} of type 2");
        list.shared(label, one_zone().bytes(), of(2, factor), ROW_0);
    }
    for factor in [0, 1, 999, 1_000] {
        let label = format!("one zone, every load factor {factor}");
        list.shared(label, one_zone().bytes(), share_of(&[0], [factor; 7]), Told::Sheet);
    }
}

/// Row 0 goes before any zone.
fn add_row_0_first(list: &mut List) {
    for (what, next) in [("names itself", [1, 4, 0, 6, 0, 0]), ("names an absent one", [7, 4, 0, 6, 0, 0])] {
        let bytes = share_of(&next, [0, 0, 0, 0, 0, 0, 1_001]);
        list.shared(format!("six zones, 1 {what}, load factor 1001"), six_zones().bytes(), bytes, ROW_0);
        let short = share(&next)[..51].to_vec();
        list.shared(format!("six zones, 1 {what}, a byte less"), six_zones().bytes(), short, ROW_0);
    }
}

/// "names one absent": in each row. The chain of a zone that leads there ends and doesn't circle.
fn add_absent(list: &mut List) {
    for (place, zone) in (0..6).zip(1..) {
        for number in [7, u32::MAX] {
            let mut next = [2, 4, 0, 6, 0, 0];
            next[place] = number;
            add_six(list, next, sixteen(zone));
        }
    }
    // The low bytes of most are zone 6 or none.
    for number in [8, 33, 256, 262, 65_542, (1 << 24) + 6, 1 << 31, (1 << 31) + 6] {
        add_six(list, [2, 4, 0, number, 0, 0], sixteen(4));
    }
    add_six(list, [7, 7, 7, 7, 7, 7], sixteen(1));
    add_six(list, [u32::MAX; 6], sixteen(1));
}

/// "names one .. without TEC, names one though it has no TEC": zone 3 with a node and zone 5 without.
fn add_without_tec(list: &mut List) {
    for (next, row) in [
        ([3, 4, 0, 6, 0, 0], 1),
        ([5, 4, 0, 6, 0, 0], 1),
        ([2, 3, 0, 6, 0, 0], 2),
        ([2, 4, 0, 3, 0, 0], 4),
        ([2, 4, 0, 5, 0, 0], 4),
        ([2, 4, 0, 6, 0, 3], 6),
        ([2, 4, 0, 6, 0, 5], 6),
        ([2, 4, 6, 6, 0, 0], 3),
        ([2, 4, 1, 6, 0, 0], 3),
        ([2, 4, 5, 6, 0, 0], 3),
        ([2, 4, 0, 6, 6, 0], 5),
        ([2, 4, 0, 6, 1, 0], 5),
        ([2, 4, 0, 6, 3, 0], 5),
        ([2, 4, 6, 6, 6, 0], 3),
        // 2 reaches 4 through 3.
        ([2, 3, 4, 6, 0, 0], 2),
    ] {
        add_six(list, next, sixteen(row));
    }
}

/// "is a second centre": of two the higher number, of more the second lowest; zones without TEC are none.
fn add_second_centres(list: &mut List) {
    for (next, row) in [
        ([0, 4, 0, 6, 0, 0], 6),
        ([2, 0, 0, 6, 0, 0], 6),
        ([2, 4, 0, 0, 0, 0], 6),
        ([0, 1, 0, 0, 0, 4], 4),
        ([0, 0, 0, 1, 0, 2], 2),
        ([0, 4, 0, 0, 0, 0], 4),
        ([2, 0, 0, 0, 0, 0], 4),
        ([0, 0, 0, 0, 0, 0], 2),
    ] {
        add_six(list, next, sixteen(row));
    }
}

/// "whose chain circles": circles of one to four zones, zones that lead into one, circles through zones without TEC.
fn add_circles(list: &mut List) {
    for (next, row) in [
        // One that names itself.
        ([1, 4, 0, 6, 0, 0], 1),
        ([2, 2, 0, 6, 0, 0], 1),
        ([2, 4, 0, 4, 0, 0], 1),
        ([2, 4, 0, 6, 0, 6], 1),
        ([6, 2, 0, 6, 0, 0], 2),
        ([0, 1, 0, 4, 0, 1], 4),
        ([0, 1, 0, 1, 0, 6], 6),
        ([2, 4, 3, 6, 0, 0], 3),
        ([2, 4, 0, 6, 5, 0], 5),
        // Two.
        ([2, 1, 0, 6, 0, 0], 1),
        ([6, 4, 0, 2, 0, 0], 2),
        ([0, 1, 0, 6, 0, 4], 4),
        ([6, 0, 0, 2, 0, 1], 1),
        ([2, 4, 0, 6, 0, 4], 1),
        // Three.
        ([2, 4, 0, 1, 0, 0], 1),
        ([4, 1, 0, 2, 0, 0], 1),
        ([0, 4, 0, 6, 0, 2], 2),
        ([2, 6, 0, 0, 0, 1], 1),
        // Four: no centre.
        ([2, 4, 0, 6, 0, 1], 1),
        ([6, 1, 0, 2, 0, 4], 1),
        ([2, 1, 0, 6, 0, 4], 1),
        // Zones that only lead into one: 1 into 4 and 6; 2 by way of 1; 6 into 1 and 4.
        ([6, 0, 0, 6, 0, 4], 1),
        ([0, 6, 0, 6, 0, 4], 2),
        ([4, 1, 0, 6, 0, 4], 1),
        ([4, 0, 0, 1, 0, 4], 1),
        ([4, 6, 0, 4, 0, 0], 1),
        // Through zones without TEC the numbers are followed too: 1 meets itself or the circle behind 2.
        ([2, 3, 1, 6, 0, 0], 1),
        ([2, 3, 2, 6, 0, 0], 1),
        ([2, 3, 3, 6, 0, 0], 1),
        ([2, 5, 0, 6, 2, 0], 1),
        ([6, 3, 2, 6, 0, 0], 2),
        ([2, 4, 5, 6, 3, 0], 3),
    ] {
        add_six(list, next, sixteen(row));
    }
}

/// "the lowest zone": two faults of different kinds, in either order.
fn add_lowest(list: &mut List) {
    for (next, row) in [
        ([2, 0, 0, 9, 0, 0], 4),
        ([9, 0, 0, 6, 0, 0], 1),
        ([2, 0, 4, 6, 0, 0], 3),
        ([2, 0, 0, 6, 4, 0], 5),
        ([0, 4, 0, 2, 0, 7], 2),
        ([0, 7, 0, 6, 0, 4], 2),
        ([3, 2, 0, 6, 0, 0], 1),
        ([2, 6, 1, 3, 0, 0], 3),
        ([0, 0, 0, 7, 0, 4], 2),
        ([6, 6, 0, 5, 9, 0], 4),
        // 1 and 2 lead to an absent zone and don't circle; 4 and 6 do.
        ([2, 7, 0, 6, 0, 4], 2),
    ] {
        add_six(list, next, sixteen(row));
    }
}

/// One zone, and 32: the last row, chains and circles through all.
fn add_few_and_many_zones(list: &mut List) {
    for (next, told) in [(0, Told::Sheet), (1, sixteen(1)), (2, sixteen(1)), (u32::MAX, sixteen(1))] {
        list.shared(format!("one zone, next {next}"), one_zone().bytes(), share(&[next]), told);
    }
    // Two zones, one of them without TEC.
    list.shared("one zone of two, next 2", level(2, &[(1, 100)]).bytes(), share(&[2, 0]), sixteen(1));
    list.shared("the second zone of two, next 1", level(2, &[(2, 100)]).bytes(), share(&[0, 1]), sixteen(2));
    list.shared("the second zone of two", level(2, &[(2, 100)]).bytes(), share(&[0, 0]), Told::Sheet);
    let inward = |last: u32| (2..=32).chain([last]).collect::<Vec<u32>>();
    let outward = |first: u32| [first].into_iter().chain(1..=31).collect::<Vec<u32>>();
    let mut halves = inward(0);
    halves[15] = 0;
    let mut late = outward(0);
    (late[30], late[31]) = (32, 31);
    for (what, next, told) in [
        ("in a chain to 32", inward(0), Told::Sheet),
        ("in a chain to 1", outward(0), Told::Sheet),
        ("in a chain to 32, which names 33", inward(33), sixteen(32)),
        ("in a circle", inward(1), sixteen(1)),
        ("in a circle turned round", outward(32), sixteen(1)),
        ("in a chain to 32, which names itself", inward(32), sixteen(1)),
        ("in two chains", halves, sixteen(32)),
        ("in a chain to 1 but for 31 and 32, which name each other", late, sixteen(31)),
    ] {
        list.shared(format!("32 zones {what}"), all_zones().bytes(), share(&next), told);
    }
}

/// "zones without TEC" are those without TEC of any type: type 3 alone makes one that names and is named.
fn add_type_3(list: &mut List) {
    // Zone 6 has enough for peak, where zone 4 makes nothing.
    let case = solved(&changed(&six_zones(), |case| (case.stations[3].plant, case.stations[4].tec) = (3, 200)));
    for (next, told) in [
        ([2, 4, 0, 6, 0, 0], Told::Sheet),
        ([4, 4, 0, 0, 0, 4], Told::Sheet),
        ([6, 6, 0, 6, 0, 0], Told::Sheet),
        ([6, 6, 0, 0, 0, 0], sixteen(6)),
        ([6, 6, 0, 4, 0, 0], sixteen(4)),
        ([2, 4, 0, 3, 0, 0], sixteen(4)),
    ] {
        list.shared(format!("six zones, 4 of type 3 alone, next {next:?}"), case.bytes(), share(&next), told);
    }
    // 0 kW are none, of type 3 too.
    let none = changed(&six_zones(), |case| case.stations[2].plant = 3);
    list.shared("six zones, 3 with 0 kW of type 3", none.bytes(), share(&[2, 4, 0, 6, 0, 0]), Told::Sheet);
    list.shared("six zones, 3 with 0 kW of type 3, names 6", none.bytes(), share(&[2, 4, 6, 6, 0, 0]), sixteen(3));
}

/// "in edition 1, nothing changes", whatever the bytes: sheets and refusals as without them.
fn add_edition_1(list: &mut List) {
    let odd = |length: usize| vec![0xff; length];
    for (what, bytes) in [
        ("a sound share file", share(&[0])),
        ("a share file that circles", share(&[1])),
        ("a byte", odd(1)),
        ("32 odd bytes", odd(32)),
        ("256 odd bytes", odd(LONGEST_SHARE)),
    ] {
        list.shared(format!("KILN and {what}"), kiln().bytes(), bytes.clone(), Told::Sheet);
        list.shared(format!("KILN_2 and {what}"), kiln_2().bytes(), bytes, Told::Sheet);
    }
    list.shared("TUT1 and a sound share file", named_case("TUT1").bytes(), share(&[2, 4, 0, 0]), Told::Sheet);
    for (name, _) in LINK_TEXTS {
        list.shared(format!("{name} and a byte"), named_case(name).bytes(), odd(1), Told::Sheet);
    }
    let faults: [(&str, fn(&mut Case), Told); 3] = [
        ("p 1,001", |case| case.settings.p = 1_001, Told::Refused(2, 0, 0)),
        ("type 3 alone", |case| case.stations.iter_mut().for_each(|row| row.plant = 3), Told::Refused(13, 0, 0)),
        ("its reference off 0", |case| case.runs[0][2] = 1, Told::Refused(8, 1, 3)),
    ];
    for (what, fault, told) in faults {
        list.shared(format!("KILN with {what} and a byte"), changed(&kiln(), fault).bytes(), odd(1), told);
    }
}

/// A share file with a fault in its zone for the one zone of `doubtful`.
const CIRCLE: [u32; 1] = [1];

/// "16 .. after 14" and before 8: with every other fault; 1 before it.
fn add_orders(list: &mut List) {
    let base = doubtful();
    list.shared("edition 2: no fault, and a sound share file", base.bytes(), share(&[0]), Told::Sheet);
    list.shared("edition 2: 16", base.bytes(), share(&CIRCLE), sixteen(1));
    for (place, (answer, fault)) in FAULTS.into_iter().enumerate() {
        let file = changed(&base, fault).bytes();
        if place < TABLES {
            let (number, system, row) = answer;
            let told = Told::Refused(number, system, row);
            list.shared(format!("edition 2: {} before 16", said(answer)), file, share(&CIRCLE), told);
        } else {
            list.shared(format!("edition 2: 16 before {}", said(answer)), file, share(&CIRCLE), sixteen(1));
        }
    }
    add_orders_of_row_0(list, &base);
    let cut = |file: Vec<u8>| file[..file.len() - 1].to_vec();
    list.shared("edition 2: 1 before 16", cut(kiln_twin().bytes()), share(&CIRCLE), super::ONE);
}

/// The same of row 0: 14 before it and all others behind it; sound files beside the faults before and behind.
fn add_orders_of_row_0(list: &mut List, base: &Case) {
    let fourteen: Fault = FAULTS[TABLES - 1];
    let behind = FAULTS[TABLES..].iter().rev();
    let all = changed(base, |case| behind.clone().for_each(|(_, fault)| fault(case))).bytes();
    list.shared("edition 2: 16 of row 0 before all behind it", all.clone(), vec![0], ROW_0);
    list.shared("edition 2: a sound share file before all behind 16", all, share(&[0]), Told::Refused(8, 1, 5));
    let refused = changed(base, fourteen.1).bytes();
    list.shared("edition 2: 14 before 16 of row 0", refused.clone(), vec![0], Told::Refused(14, 0, 0));
    list.shared("edition 2: 14 and a sound share file", refused, share(&[0]), Told::Refused(14, 0, 0));
    let last = FAULTS[FAULTS.len() - 1];
    list.shared(
        "edition 2: the last fault and a sound share file",
        changed(base, last.1).bytes(),
        share(&[0]),
        Told::Refused(10, 3, 0),
    );
}
