//! Which exchanges are listed.

/// From one exchange to another, counted from 1.
#[derive(Clone, Copy)]
pub struct Listed {
    pub from: usize,
    pub to: usize,
}

/// What stands at a place of the list.
#[derive(Clone, Copy, PartialEq, Eq, Debug)]
pub enum Item {
    Exchange(usize),
    /// These, the first and the last of them, are left out.
    Omitted(usize, usize),
}

impl Listed {
    pub const ALL: Listed = Listed {
        from: 1,
        to: usize::MAX,
    };

    fn has(self, number: usize) -> bool {
        self.from <= number && number <= self.to
    }

    /// Those asked for and the one at which the judge stops, with what is left out between them.
    pub fn of(self, count: usize, stop: Option<usize>) -> Vec<Item> {
        let mut items = Vec::new();
        let mut omitted = 0;
        for number in 1..=count {
            if !self.has(number) && stop != Some(number) {
                omitted += 1;
                continue;
            }
            push_omitted(&mut items, omitted, number);
            omitted = 0;
            items.push(Item::Exchange(number));
        }
        push_omitted(&mut items, omitted, count + 1);
        items
    }
}

/// So many before this one are left out.
fn push_omitted(items: &mut Vec<Item>, omitted: usize, number: usize) {
    if omitted > 0 {
        items.push(Item::Omitted(number - omitted, number - 1));
    }
}

/// That these are left out.
pub fn omission(first: usize, last: usize) -> String {
    if first == last {
        format!("exchange {first} is not listed")
    } else {
        format!("exchanges {first} to {last} are not listed")
    }
}

#[cfg(test)]
mod tests {
    use super::Item::{Exchange, Omitted};
    use super::*;

    #[test]
    fn what_is_left_out() {
        let listed = Listed { from: 3, to: 4 };
        assert_eq!(
            listed.of(6, None),
            [Omitted(1, 2), Exchange(3), Exchange(4), Omitted(5, 6)]
        );
        assert_eq!(
            listed.of(6, Some(1)),
            [
                Exchange(1),
                Omitted(2, 2),
                Exchange(3),
                Exchange(4),
                Omitted(5, 6)
            ]
        );
        assert_eq!(
            listed.of(6, Some(6)),
            [
                Omitted(1, 2),
                Exchange(3),
                Exchange(4),
                Omitted(5, 5),
                Exchange(6)
            ]
        );
        assert_eq!(listed.of(2, None), [Omitted(1, 2)]);
        assert_eq!(Listed::ALL.of(2, Some(2)), [Exchange(1), Exchange(2)]);
        assert_eq!(Listed::ALL.of(0, None), []);
    }

    #[test]
    fn omissions_in_words() {
        assert_eq!(omission(5, 5), "exchange 5 is not listed");
        assert_eq!(omission(5, 6), "exchanges 5 to 6 are not listed");
    }
}
