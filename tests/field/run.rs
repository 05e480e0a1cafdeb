//! The questions, and how they were answered.

use crate::common::lent::{hold, Due};
use crate::common::uff;
use crate::field::{self, Answer};
use crate::fixed::Case;
use crate::judge::Reply;

/// Bytes lent: none, one too few for a text or an integer, just enough, one too few for a real, just enough, one more.
pub const ROOMS: [usize; 6] = [0, 7, 8, 19, 20, 21];

pub struct Run {
    /// Ask the plain side only.
    pub alone: bool,
    pub questions: u32,
    /// How often each refusal came, and how often a text, an integer and a real were shown.
    pub came: [u32; 28],
    pub shown: [u32; 3],
}

impl Run {
    pub fn new(alone: bool) -> Run {
        Run { alone, questions: 0, came: [0; 28], shown: [0; 3] }
    }

    /// Takes one question with so many bytes lent.
    pub fn take(&mut self, name: &str, format: &[u8], line: &[u8], field: u32, room: usize) {
        let answer = field::ask(format, line, field);
        self.hold(name, (format, line, field), &answer, room);
    }

    /// Holds the proved answer against one; counts it.
    fn hold(&mut self, name: &str, (format, line, field): (&[u8], &[u8], u32), answer: &Answer, room: usize) {
        let due: Due<u8> = match answer {
            Ok(shown) if shown.bytes().len() > room => Err(Reply::no_line(20)),
            Ok(shown) => Ok((shown.kind(), shown.bytes())),
            Err(reply) => Err(*reply),
        };
        self.questions += 1;
        match &due {
            Ok((kind, _)) => self.shown[*kind as usize - 1] += 1,
            Err(reply) => self.came[reply.number as usize] += 1,
        }
        if self.alone {
            return;
        }
        if let Err(what) = hold(room, &due, |out| uff::field(format, line, field, out)) {
            fail(name, format, line, field, &format!("{room} bytes lent\n{what}"));
        }
    }

    /// A question whose answer is typed, in every room.
    pub fn take_typed(&mut self, case: &Case) {
        let Case { name, format, line, field, answer } = case;
        let plain = field::ask(format, line, *field);
        if plain != *answer {
            fail(name, format, line, *field, &format!("papers: {answer:?}\nplain:  {plain:?}"));
        }
        for room in ROOMS {
            self.hold(name, (format, line, *field), answer, room);
        }
    }
}

/// Prints what went wrong and the question, and ends the program.
pub fn fail(name: &str, format: &[u8], line: &[u8], field: u32, what: &str) -> ! {
    println!("DIFFERENCE on: {name}");
    println!("FORMAT |{}| ({} bytes)", format.escape_ascii(), format.len());
    println!("line   |{}| ({} bytes), field {field}", line.escape_ascii(), line.len());
    end(what)
}

pub fn end(what: &str) -> ! {
    println!("{what}");
    std::process::exit(1);
}
