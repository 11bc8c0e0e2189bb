//! The place of an iterator that reads its items page by page.

/// How many numbers, or texts, a page holds at most, and how many items.
const MOST_NUMBERS: usize = 1 << 16;
const MOST_ITEMS: usize = 1 << 12;
/// How many items the first page has, and the first one after items that are left out. Each further
/// page has twice the items of the one before it.
const FIRST_ITEMS: usize = 16;

/// Which items an iterator has given, which its page holds, and which are to come.
#[derive(Debug, Clone)]
pub(crate) struct Pages {
    /// How many items there are in all.
    in_all: u64,
    /// The number of the first item after the page.
    behind: u64,
    /// How many items the page holds, and how many of these were given.
    held: usize,
    given: usize,
    /// How many items the next page must have, and how many a page has at most.
    room: usize,
    most: usize,
}

impl Pages {
    /// The beginning of `in_all` items, each of `numbers` numbers.
    pub(crate) fn new(in_all: u64, numbers: usize) -> Pages {
        let most = (MOST_NUMBERS / numbers.max(1)).clamp(1, MOST_ITEMS);
        Pages { in_all, behind: 0, held: 0, given: 0, room: FIRST_ITEMS.min(most), most }
    }

    /// How many items there are in all.
    pub(crate) fn in_all(&self) -> u64 {
        self.in_all
    }

    /// How many items are left to give.
    pub(crate) fn left(&self) -> u64 {
        (self.in_all - self.behind).saturating_add((self.held - self.given) as u64)
    }

    /// Which item of the page is given next; `None` if the page holds no further one.
    pub(crate) fn take(&mut self) -> Option<usize> {
        if self.given == self.held {
            return None;
        }
        self.given += 1;
        Some(self.given - 1)
    }

    /// The next page: the number of its first item, and how many items it must have. `None` if
    /// there is no further item.
    pub(crate) fn wanted(&self) -> Option<(u64, usize)> {
        let left = self.in_all - self.behind;
        let count = usize::try_from(left).map_or(self.room, |left| left.min(self.room));
        (count > 0).then_some((self.behind, count))
    }

    /// Goes to the page of `wanted` items, which has `held` items. These are fewer if some numbers
    /// have no item.
    pub(crate) fn turn(&mut self, wanted: usize, held: usize) {
        self.behind = self.behind.saturating_add(wanted as u64).min(self.in_all);
        (self.held, self.given) = (held, 0);
        self.room = self.room.saturating_mul(2).min(self.most);
    }

    /// Lets the next page have `room` items, if that isn't more than a page has at most.
    pub(crate) fn limit(&mut self, room: usize) {
        self.room = room.clamp(1, self.most);
    }

    /// Leaves `count` items out.
    pub(crate) fn skip(&mut self, count: usize) {
        let held = self.held - self.given;
        if count <= held {
            self.given += count;
            return;
        }
        self.behind = self.behind.saturating_add((count - held) as u64).min(self.in_all);
        (self.held, self.given) = (0, 0);
        self.room = FIRST_ITEMS.min(self.most);
    }

    /// Goes to the end, after all items.
    pub(crate) fn end(&mut self) {
        self.behind = self.in_all;
        (self.held, self.given) = (0, 0);
    }
}

/// How many items an iterator gives, if it may end with an error before its end.
pub(crate) fn size_hint(left: u64) -> (usize, Option<usize>) {
    (usize::from(left > 0), usize::try_from(left).ok())
}

/// How many lists of numbers there are below these sizes, or 18446744073709551615 if there are
/// more.
pub(crate) fn count_of(sizes: &[u64]) -> u64 {
    sizes.iter().fold(1, |count: u64, size| count.saturating_mul(*size))
}

#[cfg(test)]
mod tests {
    use super::{count_of, Pages};

    #[test]
    fn a_page_has_as_many_items_as_it_may() {
        let mut pages = Pages::new(u64::MAX, 4);
        let mut rooms = Vec::new();
        for _ in 0..10 {
            let (_, wanted) = pages.wanted().unwrap();
            pages.turn(wanted, wanted);
            rooms.push(wanted);
        }
        assert_eq!(rooms, [16, 32, 64, 128, 256, 512, 1024, 2048, 4096, 4096]);
        // The next page alone has fewer.
        pages.limit(0);
        assert_eq!(pages.wanted(), Some((12_272, 1)));
        pages.turn(1, 1);
        assert_eq!(pages.wanted(), Some((12_273, 2)));
        pages.limit(usize::MAX);
        assert_eq!(pages.wanted(), Some((12_273, 4096)));
        pages.skip(usize::MAX);
        assert_eq!((pages.wanted(), pages.left()), (None, 0));
    }

    #[test]
    fn lists_are_counted_as_far_as_numbers_go() {
        assert_eq!(count_of(&[]), 1);
        assert_eq!(count_of(&[3, 4, 5]), 60);
        assert_eq!(count_of(&[1 << 32, 1 << 31]), 1 << 63);
        assert_eq!(count_of(&[1 << 32, 1 << 32]), u64::MAX);
        assert_eq!(count_of(&[u64::MAX, u64::MAX, 0]), 0);
        assert_eq!(count_of(&[0, u64::MAX, u64::MAX]), 0);
    }
}
