//! The explanation as one page, to be read in a browser, printed and kept.

use crate::codes;
use crate::facts::{self, Facts, Told};
use crate::fields;
use crate::files::{Input, LONGEST};
use crate::frames::{self, Reply, Request};
use crate::listing::{omission, Item, Listed};
use crate::reasons::{self, Part};
use crate::record::{self, Row};
use crate::sha256;
use crate::verdict;
use khuyapesh::PHASE;

const STYLE: &str = include_str!("page.css");

/// A longer text may be broken anywhere.
const SHORT: usize = 16;

/// How much of the digest stands at the foot of each printed sheet.
const SHORT_DIGEST: usize = 16;

pub fn page(input: &Input, listed: Listed) -> String {
    let facts = facts::facts(&input.bytes);
    let answer = verdict::answer(&facts);
    let body = match &facts {
        Err(number) => refused(input, *number),
        Ok(facts) => Page::of(facts, listed).body(),
    };
    format!(
        "<!DOCTYPE html>\n<html lang=\"en\">\n<head>\n<meta charset=\"utf-8\">\n\
         <meta name=\"viewport\" content=\"width=device-width, initial-scale=1\">\n\
         <title>{name}: {answer}</title>\n<style>\n{STYLE}{foot}</style>\n</head>\n<body>\n\
         <header>\n<h1>What this recording tells</h1>\n{header}</header>\n{body}</body>\n</html>\n",
        name = escaped(&input.last_name),
        foot = foot(input),
        header = header(input, &facts, &answer),
    )
}

/// Characters that mean something in HTML, as themselves.
fn escaped(text: &str) -> String {
    let mut safe = String::with_capacity(text.len());
    for character in text.chars() {
        match character {
            '&' => safe.push_str("&amp;"),
            '<' => safe.push_str("&lt;"),
            '>' => safe.push_str("&gt;"),
            '"' => safe.push_str("&quot;"),
            '\'' => safe.push_str("&#39;"),
            _ => safe.push(character),
        }
    }
    safe
}

/// Of a file that is longer than any recording only the start was read.
fn digest(input: &Input) -> Option<String> {
    (input.bytes.len() <= LONGEST).then(|| sha256::digest(&input.bytes))
}

/// What stands at the foot of each sheet, so that one that got lost finds its recording.
fn foot(input: &Input) -> String {
    let digest = match digest(input) {
        Some(digest) => format!("SHA-256 {}...", &digest[..SHORT_DIGEST]),
        None => String::new(),
    };
    format!(
        "@page {{ @bottom-left {{ content: \"{digest}\"; font: 8pt sans-serif; }}\n  \
         @bottom-right {{ content: \"sheet \" counter(page) \" of \" counter(pages); font: 8pt sans-serif; }} }}\n"
    )
}

/// What file this is, and the answer.
fn header(input: &Input, facts: &Result<Facts, u32>, answer: &str) -> String {
    let digest =
        digest(input).unwrap_or_else(|| "not taken, as it is too long for a recording".to_string());
    let mut rows = vec![
        ("File", escaped(&input.last_name)),
        ("SHA-256", format!("<code>{digest}</code>")),
        ("Size", verdict::size(&input.bytes)),
    ];
    if let Ok(facts) = facts {
        rows.push((
            "Address",
            format!("{} (the controller's place on the line)", facts.address),
        ));
        rows.push((
            "Access",
            format!(
                "{} (the highest level of a parameter that this link may change)",
                facts.access
            ),
        ));
    }
    rows.push(("Answer", format!("<strong>{answer}</strong>")));
    let rows: String = rows
        .iter()
        .map(|(name, text)| format!("<dt>{name}</dt><dd>{text}</dd>\n"))
        .collect();
    format!("<dl>\n{rows}</dl>\n")
}

fn refused(input: &Input, number: u32) -> String {
    format!(
        "<main>\n<div class=\"answer bad\">\n<p>The file is no whole recording: {}. Nothing in it was judged.</p>\n\
         </div>\n</main>\n",
        escaped(&verdict::refusal(number, &input.bytes))
    )
}

struct Page<'a> {
    facts: &'a Facts<'a>,
    items: Vec<Item>,
}

impl<'a> Page<'a> {
    fn of(facts: &'a Facts<'a>, listed: Listed) -> Page<'a> {
        let stop = facts.stop.as_ref().map(|stop| stop.place);
        Page {
            facts,
            items: listed.of(facts.exchanges.len(), stop),
        }
    }

    fn body(&self) -> String {
        format!(
            "<main>\n{}{}{}{}</main>\n",
            self.answer(),
            self.exchanges(),
            self.record(),
            self.codes()
        )
    }

    fn answer(&self) -> String {
        let class = if self.facts.is_refuted() {
            "answer bad"
        } else {
            "answer"
        };
        let why = match reasons::explanation(self.facts) {
            Some(parts) => format!("<p>{}</p>\n", self.parts(&parts)),
            None => String::new(),
        };
        format!(
            "<div class=\"{class}\">\n<p>{}</p>\n{why}{}</div>\n",
            escaped(&verdict::meaning(self.facts)),
            condition(self.facts.rests_on_record())
        )
    }

    // ---- links

    fn is_listed(&self, number: usize) -> bool {
        self.items.contains(&Item::Exchange(number))
    }

    /// An exchange by its number, as a link where it is listed.
    fn exchange_link(&self, word: &str, number: usize) -> String {
        if self.is_listed(number) {
            format!("<a href=\"#exchange-{number}\">{word} {number}</a>")
        } else {
            format!("{word} {number}")
        }
    }

    /// Sentences, of which the first may begin with an exchange.
    fn parts(&self, parts: &[Part]) -> String {
        let parts = parts.iter().enumerate().map(|(index, part)| match part {
            Part::Text(text) => escaped(text),
            Part::Exchange(number) if index == 0 => self.exchange_link("Exchange", *number),
            Part::Exchange(number) => self.exchange_link("exchange", *number),
        });
        parts.collect()
    }

    // ---- the exchanges

    fn exchanges(&self) -> String {
        if self.items.is_empty() {
            return "<section>\n<h2>Exchanges</h2>\n<p>There are none.</p>\n</section>\n"
                .to_string();
        }
        let rows: String = self.items.iter().map(|&item| self.item(item)).collect();
        format!(
            "<section>\n<h2>Exchanges</h2>\n<table>\n\
             <caption>Each request with its reply, and what that proved of the controller that was not known before.\
             <span class=\"screen\"> What is underlined with dots still holds at the end, and leads there.</span></caption>\n\
             <thead>\n<tr><th scope=\"col\" class=\"number\">No.</th><th scope=\"col\">Request</th>\
             <th scope=\"col\">Reply</th><th scope=\"col\">What it proved</th></tr>\n</thead>\n\
             <tbody>\n{rows}</tbody>\n</table>\n</section>\n"
        )
    }

    fn item(&self, item: Item) -> String {
        match item {
            Item::Omitted(first, last) => {
                format!(
                    "<tr><td colspan=\"4\" class=\"quiet\">{}</td></tr>\n",
                    capital(&omission(first, last))
                )
            }
            Item::Exchange(number) if number == self.facts.learnt() + 1 => self.stop_rows(number),
            Item::Exchange(number) => self.row(number, "", &self.told(number)),
        }
    }

    fn row(&self, number: usize, class: &str, told: &str) -> String {
        let exchange = self.facts.exchange(number);
        let request = frames::request(self.facts.address, exchange.request);
        let reply = frames::reply(self.facts.address, exchange.reply);
        format!(
            "<tr id=\"exchange-{number}\"{class}><th scope=\"row\" class=\"number\">{number}</th>\
             <td>{}</td><td>{}</td><td class=\"facts\">{told}</td></tr>\n",
            request_cell(&request),
            reply_cell(&reply)
        )
    }

    fn stop_rows(&self, number: usize) -> String {
        let why = reasons::explanation(self.facts).unwrap_or_default();
        let open = if self.facts.is_refuted() { "" } else { " open" };
        let nothing_after = if number < self.facts.exchanges.len() {
            format!(" {}", verdict::NOTHING_AFTER)
        } else {
            String::new()
        };
        format!(
            "{}<tr class=\"why{open}\"><td colspan=\"4\">{}{nothing_after}</td></tr>\n",
            self.row(
                number,
                &format!(" class=\"stop{open}\""),
                verdict::stopped(self.facts)
            ),
            self.parts(&why)
        )
    }

    fn told(&self, number: usize) -> String {
        let told = &self.facts.exchange(number).told;
        if number > self.facts.learnt() {
            return quiet(verdict::behind(self.facts));
        }
        if told.is_empty() {
            return quiet("nothing new");
        }
        let told: Vec<String> = told.iter().map(|&told| self.fact(number, told)).collect();
        told.join("; ")
    }

    /// What still holds at the end leads there.
    fn fact(&self, number: usize, told: Told) -> String {
        let words = escaped(&fields::news(self.facts, told));
        if self.facts.since[told.field] == number && !self.facts.is_unknown(told) {
            format!("<a href=\"#field-{}\">{words}</a>", told.field)
        } else {
            words
        }
    }

    // ---- the record

    fn record(&self) -> String {
        let rows: String = record::rows(self.facts)
            .iter()
            .map(|row| self.record_row(row))
            .collect();
        let unknown = match record::unknown_parameters(self.facts) {
            Some(unknown) => format!("<p>{unknown}</p>\n"),
            None => String::new(),
        };
        format!(
            "<section>\n<h2>{}</h2>\n<table>\n\
             <caption>Each field with what it may hold, and the exchange that showed it.</caption>\n\
             <thead>\n<tr><th scope=\"col\">Field</th><th scope=\"col\">What it holds</th><th scope=\"col\">Since</th></tr>\n\
             </thead>\n<tbody>\n{rows}</tbody>\n</table>\n{unknown}{}</section>\n",
            record::title(self.facts),
            condition(!self.facts.rests_on_record() && self.facts.learnt() > 0)
        )
    }

    fn record_row(&self, row: &Row) -> String {
        let since = match row.since {
            0 if row.field < PHASE => "from the file's header".to_string(),
            0 => String::new(),
            number => format!(
                "{} (<code>{}</code>)",
                self.exchange_link("exchange", number),
                escaped(&reasons::said(self.facts, number))
            ),
        };
        let quiet = if row.values == record::UNKNOWN {
            " class=\"quiet\""
        } else {
            ""
        };
        format!(
            "<tr id=\"field-{}\"><th scope=\"row\">{}</th><td{quiet}>{}</td><td>{since}</td></tr>\n",
            row.field,
            escaped(&row.name),
            escaped(&row.values)
        )
    }

    // ---- the codes

    fn codes(&self) -> String {
        let numbers = self.items.iter().filter_map(|item| match item {
            Item::Exchange(number) => Some(*number),
            Item::Omitted(..) => None,
        });
        let (mut requests, mut replies) = (Vec::new(), Vec::new());
        for exchange in numbers.map(|number| self.facts.exchange(number)) {
            requests.push(
                match frames::request(self.facts.address, exchange.request) {
                    Request::Text(text) => text,
                    Request::Silent(bytes, _) => format!("\"{}\"", frames::characters(bytes)),
                },
            );
            replies.push(frames::reply(self.facts.address, exchange.reply).shown(usize::MAX));
        }
        let used = codes::used(&requests, &replies);
        if used.is_empty() {
            return String::new();
        }
        let rows: String = used
            .iter()
            .map(|(code, meaning)| format!("<dt><code>{code}</code></dt><dd>{meaning}</dd>\n"))
            .collect();
        format!("<section>\n<h2>The codes used here</h2>\n<dl class=\"codes\">\n{rows}</dl>\n</section>\n")
    }
}

fn quiet(words: &str) -> String {
    match words {
        "" => String::new(),
        words => format!("<span class=\"quiet\">{words}</span>"),
    }
}

fn condition(is_said: bool) -> String {
    if is_said {
        format!("<p>{}</p>\n", verdict::CONDITION)
    } else {
        String::new()
    }
}

fn capital(text: &str) -> String {
    let mut characters = text.chars();
    let first = characters.next().map(|first| first.to_ascii_uppercase());
    first.into_iter().chain(characters).collect()
}

fn request_cell(request: &Request) -> String {
    match request {
        Request::Text(text) => code(text),
        Request::Silent(bytes, number) => format!(
            "{}S{number}: {}",
            bytes_shown(bytes),
            frames::silence(*number)
        ),
    }
}

fn reply_cell(reply: &Reply) -> String {
    match reply {
        Reply::Silence => "silence".to_string(),
        Reply::Text(text) => code(text),
        Reply::OtherAddress(text) => format!("{} (another address)", code(text)),
        Reply::NoFrame(bytes, _) => format!("{}no whole frame", bytes_shown(bytes)),
    }
}

/// Bytes as characters and as numbers.
fn bytes_shown(bytes: &[u8]) -> String {
    if bytes.is_empty() {
        return "no bytes<br>".to_string();
    }
    let characters = format!("\"{}\"", frames::characters(bytes));
    format!(
        "<div class=\"bytes\">{}<br>{}</div>",
        code(&characters),
        code(&frames::numbers(bytes))
    )
}

/// What was sent, in one line where there is room.
fn code(text: &str) -> String {
    let class = if text.chars().count() <= SHORT {
        " class=\"short\""
    } else {
        ""
    };
    format!("<code{class}>{}</code>", escaped(text))
}

#[cfg(test)]
mod tests {
    use super::*;
    use crate::sample::recording_of;

    fn input(name: &str, bytes: &[u8]) -> Input {
        Input {
            name: name.to_string(),
            last_name: name.to_string(),
            bytes: bytes.to_vec(),
        }
    }

    #[test]
    fn nothing_is_taken_for_html() {
        assert_eq!(escaped("a<b>&\"'"), "a&lt;b&gt;&amp;&quot;&#39;");
        let page = page(&input("<b>", &[1, 0, 5, 1, 2]), Listed::ALL);
        assert!(page.contains("<dd>&lt;b&gt;</dd>") && !page.contains("<b>"));
    }

    #[test]
    fn links_lead_to_what_is_listed() {
        let bytes = recording_of(&[("EQ", "000000"), ("RR", "RR 03")]);
        let page = |listed| page(&input("a", &bytes), listed);
        let all = page(Listed::ALL);
        assert!(all.contains("<title>a: fits 2</title>"));
        assert!(all.contains("<a href=\"#exchange-2\">exchange 2</a> (<code>RR, RR 03</code>)"));
        assert!(all.contains("<a href=\"#field-8\">recipe is 3</a>"));
        let one = page(Listed { from: 1, to: 1 });
        assert!(one.contains("<td>exchange 2 (<code>RR, RR 03</code>)</td>"));
        assert!(one.contains("Exchange 2 is not listed"));
    }

    #[test]
    fn exchanges_that_are_not_judged() {
        let kept = ("RT R 001", "RT R 00000500 001");
        let bytes = recording_of(&[("RR", "RR 03"), kept, ("RR", "RR 04")]);
        let page = |listed| page(&input("a", &bytes), listed);
        let all = page(Listed::ALL);
        assert!(all.contains("<title>a: not judged at 2</title>") && !all.contains("REFUTED"));
        assert!(all.contains("<tr id=\"exchange-2\" class=\"stop open\">"));
        assert!(all.contains("<td class=\"facts\"><span class=\"quiet\">not judged</span></td>"));
        assert!(all.contains("as far as it is known before exchange 2"));
        let one = page(Listed { from: 1, to: 1 });
        assert!(one.contains("id=\"exchange-2\"") && !one.contains("id=\"exchange-3\""));
    }

    #[test]
    fn a_file_that_is_too_long() {
        let page = page(&input("a", &[0; LONGEST + 1]), Listed::ALL);
        assert!(page.contains("not taken") && page.contains("more than 65535 bytes"));
    }
}
