//! The explanation as lines for a terminal.

use crate::facts::{self, Facts};
use crate::fields;
use crate::files::Input;
use crate::frames::{self, SHORT};
use crate::listing::{omission, Item, Listed};
use crate::reasons;
use crate::record;
use crate::verdict;
use khuyapesh::PHASE;

/// What is longer than this does not widen its column.
const WIDEST: usize = 20;

/// An exchange, or the head above them: number, request, reply, what was told.
type Line = [String; 4];

pub fn transcript(input: &Input, listed: Listed) -> String {
    let facts = facts::facts(&input.bytes);
    let answer = verdict::answer(&facts);
    match &facts {
        Err(number) => format!(
            "{}: {answer}: {}. Nothing in it was judged.\n",
            input.name,
            verdict::refusal(*number, &input.bytes)
        ),
        Ok(facts) => format!(
            "{}: address {}, access {}: {answer}\n{}\n{}",
            input.name,
            facts.address,
            facts.access,
            exchanges(facts, listed),
            known(facts)
        ),
    }
}

/// The exchanges, one to a line, and the explanation behind the one at which the judge stops.
fn exchanges(facts: &Facts, listed: Listed) -> String {
    let stop = facts.stop.as_ref().map(|stop| stop.place);
    let items = listed.of(facts.exchanges.len(), stop);
    if items.is_empty() {
        return String::new();
    }
    let head = [
        "no.",
        "request",
        "reply",
        "what it proved that was not known before",
    ];
    let mut lines = vec![head.map(str::to_string)];
    lines.extend(items.iter().map(|&item| line(facts, item)));
    let widths = widths(&lines);
    let mut text = laid_out(&lines[0], widths);
    for (item, line) in items.iter().zip(&lines[1..]) {
        text += &laid_out(line, widths);
        if matches!(item, Item::Exchange(number) if Some(*number) == stop) {
            text += &explanation(facts);
        }
    }
    text
}

fn line(facts: &Facts, item: Item) -> Line {
    match item {
        Item::Omitted(first, last) => {
            let words = format!("({})", omission(first, last));
            ["".to_string(), words, "".to_string(), "".to_string()]
        }
        Item::Exchange(number) => {
            let exchange = facts.exchange(number);
            [
                number.to_string(),
                frames::request(facts.address, exchange.request).shown(SHORT),
                frames::reply(facts.address, exchange.reply).shown(SHORT),
                told(facts, number),
            ]
        }
    }
}

fn told(facts: &Facts, number: usize) -> String {
    let told = &facts.exchange(number).told;
    match number {
        _ if number == facts.learnt() + 1 => verdict::stopped(facts).to_string(),
        _ if number > facts.learnt() => verdict::behind(facts).to_string(),
        _ if told.is_empty() => "nothing new".to_string(),
        _ => {
            let told: Vec<String> = told.iter().map(|&told| fields::news(facts, told)).collect();
            told.join("; ")
        }
    }
}

/// Of number, request and reply.
fn widths(lines: &[Line]) -> [usize; 3] {
    [0, 1, 2].map(|column| {
        let lengths = lines.iter().map(|line| line[column].chars().count());
        lengths
            .filter(|&length| length <= WIDEST)
            .max()
            .unwrap_or(0)
    })
}

fn laid_out([number, request, reply, told]: &Line, widths: [usize; 3]) -> String {
    let [first, second, third] = widths;
    let line = format!("{number:>first$}  {request:<second$}  {reply:<third$}  {told}");
    format!("{}\n", line.trim_end())
}

fn explanation(facts: &Facts) -> String {
    let mut lines = Vec::new();
    if let Some(parts) = reasons::explanation(facts) {
        lines.push(reasons::words(&parts));
    }
    if facts.rests_on_record() {
        let said = if facts.is_refuted() {
            verdict::CONDITION
        } else {
            verdict::BEFORE_FITS
        };
        lines.push(said.to_string());
    }
    if facts.learnt() + 1 < facts.exchanges.len() {
        lines.push(verdict::NOTHING_AFTER.to_string());
    }
    lines.iter().map(|line| format!("     {line}\n")).collect()
}

/// The record at the end.
fn known(facts: &Facts) -> String {
    let rows = record::rows(facts);
    let width = |length: fn(&record::Row) -> &str| {
        rows.iter()
            .map(|row| length(row).chars().count())
            .max()
            .unwrap_or(0)
    };
    let (names, values) = (width(|row| &row.name), width(|row| &row.values));
    let mut text = format!("{}:\n", record::title(facts));
    for row in &rows {
        let since = match row.since {
            0 if row.field < PHASE => "from the file's header".to_string(),
            0 => String::new(),
            number => format!("since exchange {number} ({})", reasons::said(facts, number)),
        };
        let line = format!("  {:<names$}  {:<values$}  {since}", row.name, row.values);
        text += &format!("{}\n", line.trim_end());
    }
    if let Some(unknown) = record::unknown_parameters(facts) {
        text += &format!("  {unknown}\n");
    }
    let is_said = facts.is_refuted() && facts.rests_on_record();
    if facts.learnt() > 0 && !is_said {
        text += &format!("  {}\n", verdict::CONDITION);
    }
    text
}
