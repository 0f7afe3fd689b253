//! 02, CR 12, "Only directions count": two cases side by side, what the request asks of them, what of it holds, and the
//! distances of both. Nothing is proved here: the promise is that of docs/only-directions.md.

use crate::charges::nodal_metres;
use crate::file::{whole_case, Case, CircuitRow, Edition, Name};
use crate::judge::judge_case;
use crate::quantities::Metres;
use crate::refusal::Refusal;
use crate::solutions::{flow_direction, Direction};
use crate::text::{self, shown_name, FACTOR_NAMES};

/// 02, CR 12: what is asked of two cases, in the order of its words.
#[derive(Clone, Copy, Debug, PartialEq, Eq)]
pub enum Asked {
    Accepted,
    Circuits,
    Names,
    Factors,
    Reference,
    Directions,
}

/// All that is asked.
pub const ASKED: [Asked; 6] =
    [Asked::Accepted, Asked::Circuits, Asked::Names, Asked::Factors, Asked::Reference, Asked::Directions];

/// What the request looks at in one case, and nothing else of it.
#[derive(Clone, Debug, PartialEq, Eq)]
pub struct Side {
    /// `None` where the case is accepted.
    pub refusal: Option<Refusal>,
    pub circuits: Vec<CircuitRow>,
    pub names: Vec<Name>,
    pub factors: [u32; 6],
    /// A row of the node table, from 1.
    pub reference: u32,
    /// Of each circuit, by the proposed base flow.
    pub directions: Vec<Direction>,
    /// Of each node, by the proposed potentials.
    pub wider: Vec<Metres>,
    pub local: Vec<Metres>,
}

/// Two cases side by side.
#[derive(Clone, Debug, PartialEq, Eq)]
pub struct Beside {
    pub sides: [Side; 2],
}

/// Two cases of whole files side by side.
pub fn beside(first: &Case, second: &Case) -> Beside {
    Beside { sides: [Side::of(first), Side::of(second)] }
}

impl Side {
    /// A case of a whole file. Where it is refused, directions and distances are still those it proposes.
    pub fn of(case: &Case) -> Side {
        let [base, wider, local, ..] = &case.runs;
        let nodes = case.nodes.len();
        let metres = |run: &[i64]| run.iter().take(nodes).map(|potential| nodal_metres(*potential)).collect();
        let flows = base.iter().skip(nodes);
        Side {
            refusal: judge_case(&case.bytes(), case.lent()).err(),
            circuits: case.circuits.clone(),
            names: case.nodes.iter().map(|row| row.name).collect(),
            factors: case.settings.factors,
            reference: case.settings.reference,
            directions: case.circuits.iter().zip(flows).map(|(row, flow)| row_direction(row, *flow)).collect(),
            wider: metres(wider),
            local: metres(local),
        }
    }
}

/// 01 step 4, for rows that are refused too: a lawful row has an expanded length where it has metres of either kind.
fn row_direction(row: &CircuitRow, base_flow: i64) -> Direction {
    match (row.overhead, row.cable) {
        (0, 0) => Direction::WithoutLength,
        _ => flow_direction(base_flow),
    }
}

impl Beside {
    /// Whether one thing that is asked holds. Circuits, names and directions are compared row by row.
    pub fn holds(&self, asked: Asked) -> bool {
        let [first, second] = &self.sides;
        match asked {
            Asked::Accepted => first.refusal.is_none() && second.refusal.is_none(),
            Asked::Circuits => first.circuits == second.circuits,
            Asked::Names => first.names == second.names,
            Asked::Factors => first.factors == second.factors,
            Asked::Reference => first.reference == second.reference,
            Asked::Directions => first.directions == second.directions,
        }
    }

    /// What is asked and doesn't hold; nothing where the request promises its metre.
    pub fn missing(&self) -> Vec<Asked> {
        ASKED.into_iter().filter(|asked| !self.holds(*asked)).collect()
    }

    /// Of each row of both node tables the second case's wider and local distance less the first's.
    pub fn differences(&self) -> Vec<[Metres; 2]> {
        let [first, second] = &self.sides;
        let less = |(second, first): (&Metres, &Metres)| Metres(second.0 - first.0);
        let wider = second.wider.iter().zip(&first.wider).map(less);
        let local = second.local.iter().zip(&first.local).map(less);
        wider.zip(local).map(|(wider, local)| [wider, local]).collect()
    }

    /// The rows, from 0, of circuits whose directions differ.
    pub fn turned(&self) -> Vec<usize> {
        let [first, second] = &self.sides;
        let rows = first.directions.iter().zip(&second.directions).enumerate();
        rows.filter(|(_, (first, second))| first != second).map(|(row, _)| row).collect()
    }
}

/// A case of edition 1 from the bytes of a whole file, or of a text that describes one. 02, CR 12: "Prove over edition 1".
pub fn read(input: &[u8]) -> Result<Case, String> {
    let case = read_any(input)?;
    match case.edition {
        Edition::One => Ok(case),
        Edition::Two => Err("a case of edition 2: request 12 speaks of edition 1 alone".to_string()),
    }
}

/// A case of any edition.
fn read_any(input: &[u8]) -> Result<Case, String> {
    if let Some(case) = whole_case(input) {
        return Ok(case);
    }
    if input.contains(&0) {
        return Err("neither a whole case file nor a text".to_string());
    }
    let file = text::make(input)
        .map_err(|faults| faults.iter().map(|fault| fault.to_string()).collect::<Vec<_>>().join("\n"))?;
    whole_case(&file).ok_or_else(|| "the file that this text describes isn't whole".to_string())
}

/// Two cases side by side as text, each by a title.
pub fn laid_out(beside: &Beside, titles: [&str; 2]) -> String {
    let parts = [answers(beside, titles), conditions(beside), circuit_table(beside), node_table(beside)];
    format!("{}\n{}\n", parts.join("\n"), conclusion(beside))
}

/// Whether each case is accepted.
fn answers(beside: &Beside, titles: [&str; 2]) -> String {
    let said = |side: &Side| side.refusal.map_or("accepted".to_string(), |refusal| refusal.to_string());
    let rows = ["first", "second"].iter().zip(titles).zip(&beside.sides);
    let rows: Vec<Vec<String>> =
        rows.map(|((place, title), side)| vec![place.to_string(), title.to_string(), said(side)]).collect();
    let mut text = columns(&rows, 3);
    if !beside.holds(Asked::Accepted) {
        text += "What a refused case proposes is shown as it is; the theorem asks for two accepted cases.\n";
    }
    text
}

/// What is asked of the two, and where it doesn't hold what differs.
fn conditions(beside: &Beside) -> String {
    let mut rows = Vec::new();
    for asked in ASKED.into_iter().filter(|asked| *asked != Asked::Accepted) {
        let said = match asked {
            _ if !beside.holds(asked) => differing(beside, asked),
            Asked::Directions if !beside.holds(Asked::Circuits) => vec!["equal, row by row".to_string()],
            _ => vec!["equal".to_string()],
        };
        let words = [word(asked)].into_iter().chain(std::iter::repeat(""));
        rows.extend(words.zip(said).map(|(word, said)| vec![word.to_string(), said]));
    }
    columns(&rows, 2)
}

/// What is asked, in words.
fn word(asked: Asked) -> &'static str {
    match asked {
        Asked::Accepted => "acceptance of both",
        Asked::Circuits => "circuits",
        Asked::Names => "names of nodes in order",
        Asked::Factors => "expansion factors",
        Asked::Reference => "reference",
        Asked::Directions => "directions",
    }
}

/// What differs, the first case's before the second's: a line each for circuits that turned, else one line.
fn differing(beside: &Beside, asked: Asked) -> Vec<String> {
    let [first, second] = &beside.sides;
    let what = match asked {
        Asked::Accepted => "one is refused".to_string(),
        Asked::Circuits => first_row(&first.circuits, &second.circuits),
        Asked::Names => first_row(&first.names, &second.names),
        Asked::Factors => {
            let factors = FACTOR_NAMES.iter().zip(first.factors.iter().zip(&second.factors));
            let differ = factors.filter(|(_, (first, second))| first != second);
            differ.map(|(name, (first, second))| format!("{name} {first} and {second}")).collect::<Vec<_>>().join(", ")
        }
        Asked::Reference => format!("row {} and row {}", first.reference, second.reference),
        Asked::Directions if first.directions.len() != second.directions.len() => {
            format!("{} and {} circuits", first.directions.len(), second.directions.len())
        }
        Asked::Directions => return beside.turned().into_iter().map(|row| turned_circuit(beside, row)).collect(),
    };
    vec![format!("not equal: {what}")]
}

/// A circuit that turned, by its row and its ends, with both directions.
fn turned_circuit(beside: &Beside, row: usize) -> String {
    let [first, second] = &beside.sides;
    let [from, to] = [first.circuits[row].first, first.circuits[row].second].map(|name| shown_name(&name));
    let ways = [first, second].map(|side| direction_word(side, row));
    format!("not equal: row {}, {from}-{to}, is {} and {}", row + 1, ways[0], ways[1])
}

/// Where two tables differ: in their number of rows, or in which row first.
fn first_row<T: PartialEq>(first: &[T], second: &[T]) -> String {
    match first.iter().zip(second).position(|(first, second)| first != second) {
        Some(row) if first.len() == second.len() => format!("row {} is the first that differs", row + 1),
        _ => format!("{} and {} rows", first.len(), second.len()),
    }
}

/// A circuit's direction by the names of its ends.
fn direction_word(side: &Side, row: usize) -> String {
    let [first, second] = [side.circuits[row].first, side.circuits[row].second].map(|name| shown_name(&name));
    match side.directions[row] {
        Direction::WithoutLength => "without length".to_string(),
        Direction::Idle => "idle".to_string(),
        Direction::InDoubt => "in doubt".to_string(),
        Direction::FirstToSecond => format!("{first} to {second}"),
        Direction::SecondToFirst => format!("{second} to {first}"),
    }
}

/// The circuits with a length, both directions of each, and a mark where they differ.
fn circuit_table(beside: &Beside) -> String {
    if !beside.holds(Asked::Circuits) {
        return "No table of circuits: the circuits aren't equal.\n".to_string();
    }
    let [first, second] = &beside.sides;
    let mut rows = vec![["ends", "", "in the first", "in the second", ""].map(String::from).to_vec()];
    for (row, circuit) in first.circuits.iter().enumerate() {
        if first.directions[row] != Direction::WithoutLength {
            let ends = [circuit.first, circuit.second].map(|name| shown_name(&name));
            let ways = [first, second].map(|side| direction_word(side, row));
            let mark = if first.directions[row] == second.directions[row] { "" } else { "differs" };
            rows.push([&ends[..], &ways[..], &[mark.to_string()]].concat());
        }
    }
    match rows.len() {
        1 => "No circuit has a length.\n".to_string(),
        _ => format!("Circuits with a length\n{}", columns(&rows, 5)),
    }
}

/// Of each node wider and local metres of both cases, and the second's less the first's.
fn node_table(beside: &Beside) -> String {
    if !beside.holds(Asked::Names) {
        return "No table of nodes: their names aren't equal in order.\n".to_string();
    }
    let [first, second] = &beside.sides;
    let head = ["node", "wider, first", "second", "difference", "local, first", "second", "difference"];
    let mut rows = vec![head.map(String::from).to_vec()];
    for (row, [wider, local]) in beside.differences().into_iter().enumerate() {
        let metres = [first.wider[row], second.wider[row], wider, first.local[row], second.local[row], local];
        let metres = metres.map(|metres| metres.0.to_string());
        rows.push([&[shown_name(&first.names[row])][..], &metres[..]].concat());
    }
    format!("Nodes, in metres\n{}", columns(&rows, 1))
}

/// What follows, and no more than that.
fn conclusion(beside: &Beside) -> String {
    let missing: Vec<&str> = beside.missing().into_iter().map(word).collect();
    if missing.is_empty() {
        return "All that the theorem asks for holds: docs/only-directions.md promises every distance equal to within a \
                metre, whatever else differs."
            .to_string();
    }
    format!("Nothing is promised of these two. What fails: {}.", missing.join(", "))
}

/// Rows as lines of columns two spaces apart: so many columns to the left, the others to the right.
fn columns(rows: &[Vec<String>], left: usize) -> String {
    let width = |column: usize| rows.iter().map(|row| row[column].chars().count()).max().unwrap_or(0);
    let widths: Vec<usize> = (0..rows.first().map_or(0, Vec::len)).map(width).collect();
    let cell = |(column, text): (usize, &String)| match column < left {
        true => format!("{text:<width$}", width = widths[column]),
        false => format!("{text:>width$}", width = widths[column]),
    };
    let line = |row: &Vec<String>| row.iter().enumerate().map(cell).collect::<Vec<_>>().join("  ");
    rows.iter().map(|row| format!("{}\n", line(row).trim_end())).collect()
}
