//! The tableau: the rows' numbers in one vector that pivots change in place.
//!
//! Of n + m rows over n columns n are always unit rows, one of each column; they are kept as column numbers.
//! The others have a slot of numbers: D, the constant form (constant first), the n coefficients. The greatest
//! common divisor of a slot is 1.

use crate::numbers::*;

/// The constant form of a unit row: parameters and quotients are at most 48 + 200.
static ZEROS: [i128; 256] = [0; 256];

#[derive(Clone, Copy)]
enum Row {
    Unit(usize),
    Slot(usize),
}

#[derive(Clone, Default)]
pub struct Tableau {
    columns: usize,
    width: usize,
    rows: Vec<Row>,
    unit_rows: Vec<usize>,
    numbers: Vec<i128>,
    short_slots: Vec<bool>,
    pivot_row: Vec<i128>,
}

impl Tableau {
    /// The rows of the unknowns, with room for others and a few cuts.
    pub fn start(columns: usize, width: usize, others: usize) -> Tableau {
        let room = others + 4;
        let mut rows = Vec::with_capacity(columns + room);
        rows.extend((0..columns).map(Row::Unit));
        Tableau {
            columns,
            width,
            rows,
            unit_rows: (0..columns).collect(),
            numbers: Vec::with_capacity(room * (2 + width + columns)),
            short_slots: Vec::with_capacity(room),
            pivot_row: vec![],
        }
    }

    /// Becomes another tableau in the room that there is.
    pub fn copy_from(&mut self, other: &Tableau) {
        self.columns = other.columns;
        self.width = other.width;
        self.rows.clone_from(&other.rows);
        self.unit_rows.clone_from(&other.unit_rows);
        self.numbers.clone_from(&other.numbers);
        self.short_slots.clone_from(&other.short_slots);
    }

    /// Appends a row of denominator 1: its constant form, then its coefficients.
    pub fn push_row(&mut self, numbers: impl IntoIterator<Item = i128>) {
        self.numbers.push(1);
        self.numbers.extend(numbers);
        self.finish_slot();
    }

    fn finish_slot(&mut self) {
        let slot = self.short_slots.len();
        self.short_slots.push(are_short(self.slot(slot)));
        self.rows.push(Row::Slot(slot));
    }

    fn stride(&self) -> usize {
        self.first_coefficient() + self.columns
    }

    fn first_coefficient(&self) -> usize {
        2 + self.width
    }

    fn slot(&self, slot: usize) -> &[i128] {
        &self.numbers[slot * self.stride()..][..self.stride()]
    }

    fn coefficients(&self, slot: usize) -> &[i128] {
        &self.slot(slot)[self.first_coefficient()..]
    }

    pub fn column_count(&self) -> usize {
        self.columns
    }

    pub fn row_count(&self) -> usize {
        self.rows.len()
    }

    /// Denominator and constant form of a row.
    pub fn value(&self, row: usize) -> (i128, &[i128]) {
        match self.rows[row] {
            Row::Unit(_) => (1, &ZEROS[..1 + self.width]),
            Row::Slot(slot) => {
                let numbers = self.slot(slot);
                (numbers[0], &numbers[1..self.first_coefficient()])
            }
        }
    }

    /// The first row whose constant is below 0.
    pub fn first_below(&self) -> Option<usize> {
        let stride = self.stride();
        let is_below = |row: &Row| matches!(row, Row::Slot(slot) if self.numbers[slot * stride + 1] < 0);
        self.rows.iter().position(is_below)
    }

    /// The first of the unknowns' rows that isn't whole.
    pub fn first_fraction(&self) -> Option<usize> {
        let is_whole = |(d, form): (i128, &[i128])| d == 1 || form.iter().all(|z| divides(d, *z));
        (0..self.columns).find(|row| !is_whole(self.value(*row)))
    }

    /// The column that enters at a row, by the lexicographic rule.
    pub fn entering(&self, row: usize) -> Result<Option<usize>, Overflow> {
        let Row::Slot(slot) = self.rows[row] else { return Ok(None) };
        let pivot_row = self.coefficients(slot);
        let mut best = None;
        for (column, entry) in pivot_row.iter().enumerate() {
            if *entry <= 0 {
                continue;
            }
            match best {
                Some(other) if !self.is_before(pivot_row, column, other)? => {}
                _ => best = Some(column),
            }
        }
        Ok(best)
    }

    /// Whether a column's ratios to the pivot row are below another's, row by row up to the first difference.
    fn is_before(&self, pivot_row: &[i128], column: usize, other: usize) -> Result<bool, Overflow> {
        for row in &self.rows[..self.columns] {
            match *row {
                Row::Unit(unit) if unit == column => return Ok(false),
                Row::Unit(unit) if unit == other => return Ok(true),
                Row::Unit(_) => {}
                Row::Slot(slot) => {
                    let entries = self.coefficients(slot);
                    let ours = product(entries[column], pivot_row[other])?;
                    let theirs = product(entries[other], pivot_row[column])?;
                    if ours != theirs {
                        return Ok(ours < theirs);
                    }
                }
            }
        }
        Ok(false)
    }

    /// Brings a column into a row: this becomes the column's unit row, and the former one takes its slot.
    pub fn pivot(&mut self, row: usize, column: usize) -> Result<(), Overflow> {
        let Row::Slot(pivot_slot) = self.rows[row] else { return Ok(()) };
        let (stride, place) = (self.stride(), self.first_coefficient() + column);
        let mut pivot_row = std::mem::take(&mut self.pivot_row);
        pivot_row.clear();
        pivot_row.extend_from_slice(self.slot(pivot_slot));
        let is_short_pivot = self.short_slots[pivot_slot];
        for (slot, numbers) in self.numbers.chunks_exact_mut(stride).enumerate() {
            let is_short = &mut self.short_slots[slot];
            if slot == pivot_slot {
                exchange(numbers, place);
                *is_short = are_short(numbers);
            } else if *is_short && is_short_pivot {
                *is_short = numbers[place] == 0 || eliminate_short(numbers, &pivot_row, place);
            } else {
                *is_short = eliminate(numbers, &pivot_row, place)?;
            }
        }
        self.pivot_row = pivot_row;
        self.rows[self.unit_rows[column]] = Row::Slot(pivot_slot);
        self.rows[row] = Row::Unit(column);
        self.unit_rows[column] = row;
        Ok(())
    }

    /// Appends the cut by a row: its coefficients modulo its denominator over a constant form.
    pub fn push_cut(&mut self, row: usize, constant: &[i128]) {
        let Row::Slot(slot) = self.rows[row] else { return };
        let (start, stride) = (slot * self.stride(), self.stride());
        let denominator = self.numbers[start];
        let first = self.numbers.len();
        self.numbers.push(denominator);
        self.numbers.extend_from_slice(constant);
        for place in start + self.first_coefficient()..start + stride {
            self.numbers.push(modulo(self.numbers[place], denominator));
        }
        divide(&mut self.numbers[first..]);
        self.finish_slot();
    }

    /// Subtracts a form from a row's constant form.
    pub fn subtract_from_constant(&mut self, row: usize, form: &[i128]) -> Result<(), Overflow> {
        let Row::Slot(slot) = self.rows[row] else { return Ok(()) };
        let stride = self.stride();
        let numbers = &mut self.numbers[slot * stride..][..stride];
        for (entry, taken) in numbers[1..].iter_mut().zip(form) {
            *entry = difference(*entry, *taken)?;
        }
        self.short_slots[slot] = divide(numbers);
        Ok(())
    }

    /// Adds a parameter: a coefficient 0 at the end of every constant form.
    pub fn add_parameter(&mut self) {
        self.insert_zeros(self.first_coefficient());
        self.width += 1;
    }

    /// Adds an unknown to a tableau in which no pivot was made: a coefficient 0 at the end of every row.
    pub fn add_unknown(&mut self) {
        self.insert_zeros(self.stride());
        self.unit_rows.push(self.columns);
        self.rows.insert(self.columns, Row::Unit(self.columns));
        self.columns += 1;
    }

    fn insert_zeros(&mut self, place: usize) {
        let mut wide = Vec::with_capacity(self.numbers.len() + self.short_slots.len());
        for numbers in self.numbers.chunks_exact(self.stride()) {
            wide.extend_from_slice(&numbers[..place]);
            wide.push(0);
            wide.extend_from_slice(&numbers[place..]);
        }
        self.numbers = wide;
    }
}

/// The pivot row solved for its column: what the column's unit row becomes.
fn exchange(numbers: &mut [i128], place: usize) {
    let (denominator, entry) = (numbers[0], numbers[place]);
    numbers.iter_mut().for_each(|z| *z = -*z);
    numbers[0] = entry;
    numbers[place] = denominator;
}

/// Replaces a column in a row by means of the pivot row; whether the new numbers are short.
fn eliminate_short(numbers: &mut [i128], pivot_row: &[i128], place: usize) -> bool {
    let (mut a, mut b) = (pivot_row[place], numbers[place]);
    if a != 1 {
        let common = gcd(b.unsigned_abs(), a.unsigned_abs()) as i64;
        a = (a as i64 / common) as i128;
        b = (b as i64 / common) as i128;
    }
    let denominator = short_product(numbers[0], a);
    for (z, p) in numbers.iter_mut().zip(pivot_row) {
        *z = short_product(a, *z) - short_product(b, *p);
    }
    numbers[0] = denominator;
    numbers[place] = short_product(b, pivot_row[0]);
    divide(numbers)
}

/// The same for numbers of any length. A row with 0 in the column stays, where its products fit.
fn eliminate(numbers: &mut [i128], pivot_row: &[i128], place: usize) -> Result<bool, Overflow> {
    let (a, b) = (pivot_row[place], numbers[place]);
    if b == 0 {
        numbers.iter().try_for_each(|z| product(a, *z).map(|_| ()))?;
        return Ok(are_short(numbers));
    }
    numbers[0] = product(a, numbers[0])?;
    for (at, (z, p)) in numbers.iter_mut().zip(pivot_row).enumerate().skip(1) {
        if at != place {
            *z = difference(product(a, *z)?, product(b, *p)?)?;
        }
    }
    numbers[place] = product(b, pivot_row[0])?;
    Ok(divide(numbers))
}

/// Divides a row by its greatest common divisor; whether its numbers are short then.
fn divide(numbers: &mut [i128]) -> bool {
    let is_short = are_short(numbers);
    let common = gcd_with(numbers[0], &numbers[1..]);
    if common == 1 {
        return is_short;
    }
    let divisor = ExactDivisor::new(common);
    if is_short {
        numbers.iter_mut().for_each(|z| *z = divisor.short_quotient(*z));
        return true;
    }
    numbers.iter_mut().for_each(|z| *z = divisor.quotient(*z));
    are_short(numbers)
}
