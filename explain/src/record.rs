//! The record as far as it is known.

use crate::facts::Facts;
use crate::fields;
use khuyapesh::{ALARMS, PHASE};

pub const UNKNOWN: &str = "unknown";

/// A field and what it may hold.
pub struct Row {
    pub field: usize,
    pub name: String,
    pub values: String,
    /// The exchange since which this is so; 0 if that is none.
    pub since: usize,
}

/// Up to which exchange this is known.
pub fn title(facts: &Facts) -> String {
    let when = match (&facts.stop, facts.exchanges.len()) {
        (Some(stop), _) => format!("before exchange {}", stop.place),
        (None, 0) => "from the header alone".to_string(),
        (None, last) => format!("after exchange {last}"),
    };
    format!("The record, as far as it is known {when}")
}

/// All fields, but only those parameters of which something is known.
pub fn rows(facts: &Facts) -> Vec<Row> {
    let scalars = (0..=ALARMS).map(|field| row(facts, field, fields::name(field)));
    let parameters = fields::places().flat_map(|place| parameter_rows(facts, place));
    scalars.chain(parameters).collect()
}

fn row(facts: &Facts, field: usize, name: String) -> Row {
    let values = if is_known(facts, field) {
        fields::values(facts.known(field))
    } else {
        UNKNOWN.to_string()
    };
    Row {
        field,
        name,
        values,
        since: facts.since[field],
    }
}

/// Value and level have a row each if both are known; else one says what is known, and what is not.
fn parameter_rows(facts: &Facts, place: usize) -> Vec<Row> {
    let code = fields::code(place);
    let name = format!("{code} {}", fields::parameter_name(place));
    let (value, level) = (khuyapesh::value(place), khuyapesh::level(place));
    let mut of_value = row(facts, value, name.clone());
    let mut of_level = row(facts, level, format!("{code} its level"));
    match (is_known(facts, value), is_known(facts, level)) {
        (false, false) => vec![],
        (true, true) => vec![of_value, of_level],
        (true, false) => {
            of_value.values += ", level unknown";
            vec![of_value]
        }
        (false, true) => {
            of_level.name = name;
            of_level.values = format!("unknown, level {}", of_level.values);
            vec![of_level]
        }
    }
}

/// Of address and access all is known from the beginning on.
fn is_known(facts: &Facts, field: usize) -> bool {
    field < PHASE || !facts.is_unknown(facts.known(field))
}

/// The parameters of which nothing is known.
pub fn unknown_parameters(facts: &Facts) -> Option<String> {
    let unknown: Vec<usize> = fields::places()
        .filter(|&place| parameter_rows(facts, place).is_empty())
        .collect();
    let all = fields::places().len();
    match unknown.len() {
        0 => None,
        count if count == all => Some(format!("Nothing is known of the {all} parameters.")),
        _ => Some(format!(
            "Nothing is known of the parameters {}.",
            fields::codes(&unknown)
        )),
    }
}

#[cfg(test)]
mod tests {
    use super::*;
    use crate::facts;
    use crate::sample::recording_of;

    /// The rows behind the alarms, and what is said below them.
    fn parameters(texts: &[(&str, &str)]) -> (Vec<String>, Option<String>) {
        let bytes = recording_of(texts);
        let facts = facts::facts(&bytes).expect("it is a recording");
        let rows = rows(&facts).into_iter().skip(ALARMS + 1);
        let shown = rows.map(|row| format!("{}: {} since {}", row.name, row.values, row.since));
        (shown.collect(), unknown_parameters(&facts))
    }

    #[test]
    fn parameters_of_which_something_is_known() {
        let (rows, unknown) = parameters(&[
            ("PV 032", "PV 032 00010012"),
            ("XV 042", "XV 042 3"),
            ("PV 801", "PV 801 00000005"),
            ("XC 801 1", "OK"),
        ]);
        assert_eq!(
            rows,
            [
                "032 factor of recipe 3: 10012, level unknown since 1",
                "042 factor of recipe 4: unknown, level 3 since 2",
                "801 start wait: 5 since 3",
                "801 its level: 1 since 4",
            ]
        );
        assert_eq!(
            unknown.as_deref(),
            Some("Nothing is known of the parameters 011 to 031, 033, 041, 043 to 083 and 802 to 808.")
        );
        let (rows, unknown) = parameters(&[]);
        assert!(rows.is_empty());
        assert_eq!(
            unknown.as_deref(),
            Some("Nothing is known of the 32 parameters.")
        );
    }

    #[test]
    fn other_fields() {
        let bytes = recording_of(&[("SP", "NO05"), ("RE PC", "OK"), ("PC 032 8000", "OK")]);
        let facts = facts::facts(&bytes).expect("it is a recording");
        let shown = |field: usize| {
            let row = &rows(&facts)[field];
            format!("{}: {} since {}", row.name, row.values, row.since)
        };
        assert_eq!(shown(0), "address: 1 since 0");
        assert_eq!(shown(PHASE), "phase: Idle or Done since 3");
        // The value held before was not known.
        assert_eq!(shown(5), "changed flag: unknown since 3");
        assert_eq!(shown(10), "raw total: unknown since 0");
        assert_eq!(
            title(&facts),
            "The record, as far as it is known after exchange 3"
        );
    }
}
