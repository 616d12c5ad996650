//! Programs, and the file REL.

use crate::bounds::MOST_STEPS;
use crate::cursor::{opening, Cursor};
use crate::graph::Graph;
use crate::refusal::{Cause, File, Refusal};

/// The operations of docs/RULES.md (5.4).
pub mod op {
    pub const TABLE: u8 = 0x01;
    pub const OWN: u8 = 0x02;
    pub const TEXT: u8 = 0x03;
    pub const JOIN: u8 = 0x04;
    pub const UNION: u8 = 0x05;
    pub const LFP: u8 = 0x06;
    pub const HAS: u8 = 0x07;
    pub const DIFF: u8 = 0x08;
    pub const AND: u8 = 0x09;
}

/// One step. An operand is the number of an earlier step.
#[derive(Clone, Copy, PartialEq, Eq, Debug)]
pub enum Step {
    Table(u16),
    Own,
    Text(u16),
    Join(usize, usize),
    Union(usize, usize),
    Lfp(usize),
    Has(usize),
    Diff(usize, usize),
    And(usize, usize),
}

pub fn read(graph: &Graph, bytes: &[u8]) -> Result<Vec<Step>, Refusal> {
    let mut file = Cursor::open(File::Program, bytes)?;
    let count = usize::from(file.byte()?);
    if !(1..=MOST_STEPS).contains(&count) {
        return Err(file.refuse(Cause::Bound));
    }
    let steps = (0..count)
        .map(|own| read_step(&mut file, graph, own))
        .collect::<Result<_, _>>()?;
    file.end()?;
    Ok(steps)
}

fn read_step(file: &mut Cursor, graph: &Graph, own: usize) -> Result<Step, Refusal> {
    let step = match file.byte()? {
        op::TABLE => Step::Table(file.mask_below(graph.types())?),
        op::OWN => {
            unused(file)?;
            unused(file)?;
            Step::Own
        }
        op::TEXT => Step::Text(file.number()?),
        op::JOIN => Step::Join(operand(file, own)?, operand(file, own)?),
        op::UNION => Step::Union(operand(file, own)?, operand(file, own)?),
        op::LFP => {
            let a = operand(file, own)?;
            unused(file)?;
            Step::Lfp(a)
        }
        op::HAS => {
            let a = operand(file, own)?;
            unused(file)?;
            Step::Has(a)
        }
        op::DIFF => Step::Diff(operand(file, own)?, operand(file, own)?),
        op::AND => Step::And(operand(file, own)?, operand(file, own)?),
        _ => return Err(file.refuse(Cause::Code)),
    };
    Ok(step)
}

fn operand(file: &mut Cursor, own: usize) -> Result<usize, Refusal> {
    let step = usize::from(file.byte()?);
    if step >= own {
        return Err(file.refuse(Cause::Operand));
    }
    Ok(step)
}

fn unused(file: &mut Cursor) -> Result<(), Refusal> {
    if file.byte()? != 0 {
        return Err(file.refuse(Cause::Extra));
    }
    Ok(())
}

pub fn write(steps: &[Step]) -> Vec<u8> {
    let mut bytes = opening(File::Program);
    bytes.push(steps.len() as u8);
    for step in steps {
        bytes.extend(step_bytes(*step));
    }
    bytes
}

fn step_bytes(step: Step) -> [u8; 3] {
    let of_number = |op: u8, number: u16| {
        let [high, low] = number.to_be_bytes();
        [op, high, low]
    };
    let of_steps = |op: u8, a: usize, b: usize| [op, a as u8, b as u8];
    match step {
        Step::Table(mask) => of_number(op::TABLE, mask),
        Step::Own => [op::OWN, 0, 0],
        Step::Text(number) => of_number(op::TEXT, number),
        Step::Join(a, b) => of_steps(op::JOIN, a, b),
        Step::Union(a, b) => of_steps(op::UNION, a, b),
        Step::Lfp(a) => of_steps(op::LFP, a, 0),
        Step::Has(a) => of_steps(op::HAS, a, 0),
        Step::Diff(a, b) => of_steps(op::DIFF, a, b),
        Step::And(a, b) => of_steps(op::AND, a, b),
    }
}
