//! Full blocks of input with line ends around their edges, and more reads than a small budget allows.

use crate::inputs::{settings, state, BLOCK};
use crate::program::{must, must_be, told, Program, Verdict};
use crate::reading::whole;
use crate::Case;
use std::io::{pipe, BufRead, BufReader, Read, Write};

/// The longest line, with its line feed.
const LINE: usize = 600;

/// How often a line is handed over alone.
const TURNS: usize = 15_000;

/// A line of so many bytes, its line feed included, that is refused: 3, or 1 from 601 bytes on.
fn refused(length: usize) -> String {
    "Z".repeat(length - 1) + "\n"
}

/// Lines and where the edge of a block falls in them: at, before and behind the line feed, and in between. Each lost or
/// doubled byte shows: A is answered or refused, and 600 bytes get another number than 601.
fn edges() -> Vec<(String, usize)> {
    let ask = "A\t1\t0\n";
    let mut edges: Vec<_> = (0..=ask.len()).map(|at| (ask.to_string(), at)).collect();
    for length in [LINE, LINE + 1] {
        let places = [0, 1, 2, length / 2, length - 2, length - 1, length];
        edges.extend(places.map(|at| (refused(length), at)));
    }
    edges
}

/// Fills up to a place with refused lines.
fn fill(input: &mut String, place: usize) {
    while input.len() < place {
        let rest = place - input.len();
        // Never a single byte left, which would be a line feed alone or none at all.
        let length = if rest > LINE && rest < LINE + 10 { LINE / 2 } else { rest.min(LINE) };
        input.push_str(&refused(length));
    }
}

/// A block for each edge, and a line longer than two blocks.
fn full_blocks() -> String {
    let mut input = settings() + &state(5);
    for (number, (line, at)) in edges().into_iter().enumerate() {
        fill(&mut input, (number + 1) * BLOCK - at);
        input += &line;
        input += "A\t1\t4\n";
    }
    input += &refused(2 * BLOCK + 1);
    input + "A\t1\t3\n"
}

pub fn at_edges(case: &Case) -> Verdict {
    let input = full_blocks();
    for (number, (line, at)) in edges().into_iter().enumerate() {
        let place = (number + 1) * BLOCK - at;
        must(input[place..].starts_with(&line), || format!("line {number} is not at its edge"))?;
    }
    whole(case, input.as_bytes())
}

/// Lines with one answer each, by turns.
fn turn(number: usize) -> &'static str {
    ["A\t1\t0\n", "Z\n", "M\t5\t0\t7\n", "Q\t0\t9\t0001\n"][number % 4]
}

/// Each line is handed over when the one before was answered, so each is read alone.
pub fn one_by_one(case: &Case) -> Verdict {
    let start = settings() + &state(5);
    let lines: String = (0..TURNS).map(turn).collect();
    let truth = case.truth((start.clone() + &lines).as_bytes())?;
    let (theirs, mut input) = pipe().map_err(told)?;
    let (output, ours) = pipe().map_err(told)?;
    let program = Program::start(case.command, theirs, ours)?;
    let (mut output, mut came) = (BufReader::new(output), Vec::new());
    input.write_all(start.as_bytes()).map_err(told)?;
    for number in 0..TURNS {
        input.write_all(turn(number).as_bytes()).map_err(|_| format!("no line is taken after {number}"))?;
        let length = output.read_until(b'\n', &mut came).map_err(told)?;
        must(length > 0, || format!("it ended after {number} lines"))?;
    }
    drop(input);
    output.read_to_end(&mut came).map_err(told)?;
    must_be(&came, &truth)?;
    program.must_end("")
}
