//! Document 02, W-205: the wall page, written line by line.

use super::setup::Setup;
use super::year::{Cumsums, Line, Year};

/// "lines exactly 60 bytes and a newline"
pub(super) const LINE_BYTES: usize = 61;

/// A line with nothing on it: "the remaining 3 bytes spaces at the line's end".
const BLANK: [u8; LINE_BYTES] = {
    let mut line = [b' '; LINE_BYTES];
    line[LINE_BYTES - 1] = b'\n';
    line
};

/// "a head line with P, D and periods, then one line per remaining engine"; the
/// page has a line for each.
pub(super) fn write(page: &mut [[u8; LINE_BYTES]], year: &Year, cumsums: &Cumsums) {
    let Some((head, rest)) = page.split_first_mut() else {
        return;
    };
    write_head(head, &year.setup);
    for (place, line) in rest.iter_mut().zip(year.lines(cumsums)) {
        write_engine(place, &line);
    }
}

/// "the head uses widths 8, 3 and 1, then spaces"
fn write_head(place: &mut [u8; LINE_BYTES], setup: &Setup) {
    let mut columns = Columns::new(place);
    columns.number(8, setup.volume);
    columns.number(3, setup.days.into());
    columns.number(1, setup.periods().into());
}

/// "number, both results, C low and C high of HC+NOx then of CO [..], both
/// marks", in "widths 5, 5, 5, four of 10, and 1 and 1"
fn write_engine(place: &mut [u8; LINE_BYTES], line: &Line) {
    let mut columns = Columns::new(place);
    columns.number(5, line.number.into());
    for result in line.results {
        columns.number(5, result.into());
    }
    for cumsum in line.cumsums {
        columns.number(10, cumsum);
    }
    for mark in line.marks {
        columns.mark(mark);
    }
}

/// What is left of a line that is written column by column.
struct Columns<'l> {
    rest: &'l mut [u8],
}

impl<'l> Columns<'l> {
    fn new(line: &'l mut [u8; LINE_BYTES]) -> Self {
        *line = BLANK;
        Self { rest: line }
    }

    /// A number, "right-aligned with spaces" in a column of this width.
    fn number(&mut self, width: usize, number: u32) {
        let Some(column) = self.rest.split_off_mut(..width) else {
            return;
        };
        let mut left = number;
        for place in column.iter_mut().rev() {
            *place = b'0' + (left % 10) as u8;
            left /= 10;
            if left == 0 {
                break;
            }
        }
    }

    fn mark(&mut self, mark: u8) {
        if let Some(place) = self.rest.split_off_first_mut() {
            *place = mark;
        }
    }
}
