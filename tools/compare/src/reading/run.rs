//! Running: the rows of a program over a table, in document 01's order.

use super::compile::{Instruction, Program};
use super::meaning::instance;
use super::multi::Part;
use super::pattern::PatternNode;
use super::table::Table;

/// Whether a search goes on after a row.
#[derive(Clone, Copy, PartialEq, Eq)]
pub enum Flow {
    On,
    Stop,
}

/// A search: what is searched for, where, and how many steps it may still take.
pub struct Search<'a> {
    pub table: &'a Table,
    pub parts: &'a [Part],
    pub program: &'a Program,
    pub cycles_allowed: bool,
    pub steps_left: u64,
}

impl Search<'_> {
    /// Hands each row of the class to `row`, until it says stop or the steps are used up.
    pub fn each_row(&mut self, class: u32, row: &mut dyn FnMut(&[u32]) -> Flow) -> Flow {
        self.run(0, &mut vec![class], row)
    }

    /// The rest of a path, from the instruction at `next` with these registers.
    fn run(&mut self, next: usize, registers: &mut Vec<u32>, row: &mut dyn FnMut(&[u32]) -> Flow) -> Flow {
        if self.steps_left == 0 {
            return Flow::Stop;
        }
        self.steps_left -= 1;
        let table = self.table;
        let Some(instruction) = self.program.instructions.get(next) else {
            if !self.cycles_allowed && registers[1..].contains(&registers[0]) {
                return Flow::On;
            }
            let words: Vec<u32> = self.program.variables.iter().map(|(_, r)| registers[*r]).collect();
            return row(&words);
        };
        match *instruction {
            Instruction::Bind { part, node, from, to } => {
                let PatternNode::Operator(operator, children) = &self.parts[part].pattern.nodes[node] else {
                    unreachable!("a Bind names an operator")
                };
                for candidate in &table.classes[table.place(registers[from])].nodes {
                    if candidate.operator == *operator && candidate.children.len() == children.len() {
                        registers.truncate(to);
                        registers.extend(&candidate.children);
                        if self.run(next + 1, registers, row) == Flow::Stop {
                            return Flow::Stop;
                        }
                    }
                }
                Flow::On
            }
            Instruction::Scan { to, .. } => {
                for class in &table.classes {
                    registers.truncate(to);
                    registers.push(class.id);
                    if self.run(next + 1, registers, row) == Flow::Stop {
                        return Flow::Stop;
                    }
                }
                Flow::On
            }
            Instruction::Compare { from, to, .. } if registers[from] == registers[to] => {
                self.run(next + 1, registers, row)
            }
            Instruction::Compare { .. } => Flow::On,
            Instruction::Lookup { part, node, from } => {
                let value = |v| self.program.register(v).map(|r| registers[r]);
                let found = instance(table, &self.parts[part].pattern, node, &value);
                if found == Some(registers[from]) {
                    self.run(next + 1, registers, row)
                } else {
                    Flow::On
                }
            }
        }
    }
}
