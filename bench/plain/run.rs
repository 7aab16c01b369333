//! The written run: docs/RUN.md, step by step. A form has its constant first.

use crate::numbers::*;
use crate::tableau::Tableau;
use std::iter::once;

pub type Form = Vec<i128>;

pub struct Problem<'b> {
    pub comment: &'b [u8],
    pub unknowns: usize,
    pub parameters: usize,
    pub is_integer: bool,
    /// Row after row: the form of the parameters, then the unknowns' coefficients.
    pub rows: Vec<i128>,
    /// Form after form.
    pub context: Vec<i128>,
}

#[derive(Clone, Copy)]
pub struct Budgets {
    pub pivots: u64,
    pub cuts: u64,
    pub splits: u64,
    pub nesting: u64,
}

#[derive(Default)]
pub struct Counts {
    pub pivots: u64,
    pub pivots_in_points: u64,
    pub cuts: u64,
    pub splits: u64,
}

impl Counts {
    pub fn add(&mut self, other: &Counts) {
        self.pivots += other.pivots;
        self.pivots_in_points += other.pivots_in_points;
        self.cuts += other.cuts;
        self.splits += other.splits;
    }
}

impl std::fmt::Display for Counts {
    fn fmt(&self, to: &mut std::fmt::Formatter) -> std::fmt::Result {
        let Counts { pivots, pivots_in_points, cuts, splits } = self;
        write!(to, "pivots {pivots} (in points {pivots_in_points}) cuts {cuts} splits {splits}")
    }
}

pub enum Refusal {
    Overflow,
    Budget(&'static str, u64),
}

impl From<Overflow> for Refusal {
    fn from(_: Overflow) -> Refusal {
        Refusal::Overflow
    }
}

/// The floor of a form over a divisor.
pub struct Quotient {
    pub form: Form,
    pub divisor: i128,
}

impl Quotient {
    /// Whether it is the same as another one over as many places or more.
    fn is(&self, wide: &Quotient) -> bool {
        let (front, rest) = wide.form.split_at(self.form.len());
        self.divisor == wide.divisor && self.form == front && rest.iter().all(|z| *z == 0)
    }
}

/// A component: a form over its denominator.
pub struct Component {
    pub denominator: i128,
    pub form: Form,
}

pub enum Tree {
    Void,
    Bottom,
    List(Vec<Component>),
    If(Form, Box<Tree>, Box<Tree>),
    NewParameter(Quotient, Box<Tree>),
}

enum Class {
    Plus,
    Minus,
    Unknown(Form),
}

enum Signs {
    Below(usize),
    Unknown(Form),
    Plus,
}

fn count(counter: &mut u64, budget: u64, name: &'static str) -> Result<(), Refusal> {
    if *counter >= budget {
        return Err(Refusal::Budget(name, budget));
    }
    *counter += 1;
    Ok(())
}

/// The form divided by what divides its coefficients, its constant rounded down.
fn tighten(form: &mut [i128]) {
    let common = gcd_with(0, &form[1..]);
    if common > 1 {
        form.iter_mut().for_each(|z| *z = floor_quotient(*z, common));
    }
}

/// -form - 1, which is at least 0 where the form is below 0.
fn opposite(form: &[i128]) -> Result<impl Iterator<Item = i128> + '_, Overflow> {
    let constant = difference(-form[0], 1)?;
    Ok(once(constant).chain(form[1..].iter().map(|z| -z)))
}

fn list(rows: &Tableau) -> Tree {
    let component = |row| {
        let (denominator, form) = rows.value(row);
        Component { denominator, form: form.to_vec() }
    };
    Tree::List((0..rows.column_count()).map(component).collect())
}

/// A node of the tree to be: its rows and its context, a tableau without parameters.
struct Node {
    rows: Tableau,
    context: Tableau,
    nesting: u64,
}

pub struct Run {
    is_integer: bool,
    budgets: Budgets,
    pub counts: Counts,
    /// The path's quotients, each with its place in forms.
    quotients: Vec<(usize, Quotient)>,
    /// The room of the searches for points.
    point: Tableau,
}

impl Run {
    pub fn new(is_integer: bool, budgets: Budgets) -> Run {
        Run { is_integer, budgets, counts: Counts::default(), quotients: vec![], point: Tableau::default() }
    }

    pub fn solve(&mut self, mut problem: Problem) -> Result<Tree, Refusal> {
        let Problem { unknowns, parameters, .. } = problem;
        let forms = problem.context.chunks_exact(1 + parameters);
        let mut context = Tableau::start(parameters, 0, forms.len());
        for form in forms {
            context.push_row(form.iter().copied());
        }
        if !problem.context.is_empty() {
            self.point.copy_from(&context);
            if !self.has_point()? {
                return Ok(Tree::Void);
            }
        }
        let started = problem.rows.chunks_exact_mut(1 + parameters + unknowns);
        let mut rows = Tableau::start(unknowns, parameters, started.len());
        for row in started {
            if self.is_integer {
                tighten(row);
            }
            rows.push_row(row.iter().copied());
        }
        self.tree(Node { rows, context, nesting: 0 })
    }

    fn tree(&mut self, mut node: Node) -> Result<Tree, Refusal> {
        loop {
            match self.signs(&node)? {
                Signs::Below(row) => {
                    let Some(column) = node.rows.entering(row)? else { return Ok(Tree::Bottom) };
                    count(&mut self.counts.pivots, self.budgets.pivots, "pivots")?;
                    node.rows.pivot(row, column)?;
                }
                Signs::Unknown(condition) => return self.split(node, condition),
                Signs::Plus => {
                    let fraction = if self.is_integer { node.rows.first_fraction() } else { None };
                    let Some(row) = fraction else { return Ok(list(&node.rows)) };
                    if let Some(quotient) = self.cut(&mut node, row)? {
                        return self.new_parameter(node, row, quotient);
                    }
                }
            }
        }
    }

    fn signs(&mut self, node: &Node) -> Result<Signs, Refusal> {
        let mut first_unknown = None;
        for row in 0..node.rows.row_count() {
            let (_, form) = node.rows.value(row);
            match self.class(&node.context, form)? {
                Class::Plus => {}
                Class::Minus => return Ok(Signs::Below(row)),
                Class::Unknown(condition) => {
                    first_unknown.get_or_insert(condition);
                }
            }
        }
        Ok(first_unknown.map_or(Signs::Plus, Signs::Unknown))
    }

    fn class(&mut self, context: &Tableau, form: &[i128]) -> Result<Class, Refusal> {
        if form.iter().all(|z| *z >= 0) {
            return Ok(Class::Plus);
        }
        if form[0] < 0 && form.iter().all(|z| *z <= 0) {
            return Ok(Class::Minus);
        }
        let mut condition = form.to_vec();
        tighten(&mut condition);
        self.point.copy_from(context);
        self.point.push_row(opposite(&condition)?);
        if !self.has_point()? {
            return Ok(Class::Plus);
        }
        self.point.copy_from(context);
        self.point.push_row(condition.iter().copied());
        if !self.has_point()? {
            return Ok(Class::Minus);
        }
        Ok(Class::Unknown(condition))
    }

    /// Whether the started rows have a whole point.
    fn has_point(&mut self) -> Result<bool, Refusal> {
        loop {
            if let Some(row) = self.point.first_below() {
                let Some(column) = self.point.entering(row)? else { return Ok(false) };
                count(&mut self.counts.pivots, self.budgets.pivots, "pivots")?;
                self.counts.pivots_in_points += 1;
                self.point.pivot(row, column)?;
            } else if let Some(row) = self.point.first_fraction() {
                count(&mut self.counts.cuts, self.budgets.cuts, "cuts")?;
                let (denominator, form) = self.point.value(row);
                let rest = -modulo(-form[0], denominator);
                self.point.push_cut(row, &[rest]);
            } else {
                return Ok(true);
            }
        }
    }

    fn deeper(&self, nesting: u64) -> Result<u64, Refusal> {
        if nesting >= self.budgets.nesting {
            return Err(Refusal::Budget("nesting", self.budgets.nesting));
        }
        Ok(nesting + 1)
    }

    fn split(&mut self, node: Node, condition: Form) -> Result<Tree, Refusal> {
        count(&mut self.counts.splits, self.budgets.splits, "splits")?;
        let nesting = self.deeper(node.nesting)?;
        let (mut above, mut below) = (node.context.clone(), node.context);
        above.push_row(condition.iter().copied());
        let first = self.tree(Node { rows: node.rows.clone(), context: above, nesting })?;
        below.push_row(opposite(&condition)?);
        let second = self.tree(Node { rows: node.rows, context: below, nesting })?;
        Ok(Tree::If(condition, first.into(), second.into()))
    }

    /// Cuts by a row that isn't whole, or says which quotient must first have a parameter of its own.
    fn cut(&mut self, node: &mut Node, row: usize) -> Result<Option<Quotient>, Refusal> {
        count(&mut self.counts.cuts, self.budgets.cuts, "cuts")?;
        let (divisor, form) = node.rows.value(row);
        let residue: Form = form.iter().map(|z| modulo(-z, divisor)).collect();
        let mut rest: Form = residue.iter().map(|z| -z).collect();
        if residue[1..].iter().all(|z| *z == 0) {
            node.rows.push_cut(row, &rest);
            return Ok(None);
        }
        let quotient = Quotient { form: residue, divisor };
        let Some((place, _)) = self.quotients.iter().find(|(_, known)| known.is(&quotient)) else {
            return Ok(Some(quotient));
        };
        rest[*place] += divisor;
        if let Class::Plus = self.class(&node.context, &rest)? {
            node.rows.subtract_from_constant(row, &rest)?;
        } else {
            node.rows.push_cut(row, &rest);
        }
        Ok(None)
    }

    fn new_parameter(&mut self, mut node: Node, row: usize, quotient: Quotient) -> Result<Tree, Refusal> {
        node.nesting = self.deeper(node.nesting)?;
        let place = quotient.form.len();
        let mut rest: Form = quotient.form.iter().map(|z| -z).collect();
        rest.push(quotient.divisor);
        node.rows.add_parameter();
        node.rows.push_cut(row, &rest);
        node.context.add_unknown();
        node.context.push_row(rest.iter().map(|z| -z));
        rest[0] += quotient.divisor - 1;
        node.context.push_row(rest);
        self.quotients.push((place, quotient));
        let below = self.tree(node)?;
        let (_, quotient) = self.quotients.pop().expect("the quotient that was added here");
        Ok(Tree::NewParameter(quotient, below.into()))
    }
}
