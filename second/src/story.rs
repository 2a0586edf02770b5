//! Stories of a settings history: a first picture, a room, the number kept, and steps that a caller takes one after
//! the other; and the stream of bytes in which stories follow one another.

use crate::history::Change;
use crate::stream::Stream;

/// How many bytes a change takes in a stream; the last two are zero.
const CHANGE_BYTES: usize = 16;

/// One step of a story.
#[derive(Clone, Debug, PartialEq, Eq)]
pub enum Step {
    Add(Vec<Change>),
    WindBack(u32),
    Version {
        k: u32,
        out_len: u32,
    },
    /// The caller's own number kept becomes this.
    SetKept(u32),
}

/// A first picture, a room as it is lent, how many changes of it are kept, and what happens then.
#[derive(Clone, Debug, PartialEq, Eq)]
pub struct Story {
    pub first: Vec<u8>,
    pub room: Vec<Change>,
    pub kept: u32,
    pub steps: Vec<Step>,
}

impl Story {
    /// Appends the story to a stream.
    pub fn write(&self, out: &mut Vec<u8>) {
        out.extend((self.first.len() as u32).to_le_bytes());
        out.extend(&self.first);
        write_changes(out, &self.room);
        out.extend(self.kept.to_le_bytes());
        out.extend((self.steps.len() as u32).to_le_bytes());
        self.steps.iter().for_each(|step| step.write(out));
    }
}

impl Step {
    /// Appends the step to a stream.
    fn write(&self, out: &mut Vec<u8>) {
        match self {
            Step::Add(run) => {
                out.push(1);
                write_changes(out, run);
            }
            Step::WindBack(k) => write_numbers(out, 2, &[*k]),
            Step::Version { k, out_len } => write_numbers(out, 3, &[*k, *out_len]),
            Step::SetKept(kept) => write_numbers(out, 4, &[*kept]),
        }
    }
}

/// Appends the byte of a step and its numbers of 4 bytes.
fn write_numbers(out: &mut Vec<u8>, op: u8, numbers: &[u32]) {
    out.push(op);
    numbers.iter().for_each(|number| out.extend(number.to_le_bytes()));
}

/// Appends how many changes there are, and the changes.
fn write_changes(out: &mut Vec<u8>, changes: &[Change]) {
    out.extend((changes.len() as u32).to_le_bytes());
    for change in changes {
        out.extend(packed(change));
        out.extend([0, 0]);
    }
}

/// The 14 bytes of a change that say something.
pub fn packed(change: &Change) -> Vec<u8> {
    let numbers = [change.port, change.part, change.at].map(u32::to_le_bytes).concat();
    [numbers, vec![change.old, change.new]].concat()
}

/// The stories of a stream one after the other; an error where it is cut short or holds something else.
pub struct Stories<'a>(Stream<'a>);

impl<'a> Stories<'a> {
    /// The stories of these bytes.
    pub fn of(stream: &'a [u8]) -> Stories<'a> {
        Stories(Stream::of(stream, "stream of stories"))
    }
}

/// Takes a number of changes, and so many changes.
fn take_changes(stream: &mut Stream) -> Result<Vec<Change>, String> {
    let count = stream.take_4()? as usize;
    let bytes = stream.take(count * CHANGE_BYTES)?;
    bytes.chunks(CHANGE_BYTES).map(unpacked).collect()
}

/// Takes a step.
fn take_step(stream: &mut Stream) -> Result<Step, String> {
    match stream.take(1)?[0] {
        1 => Ok(Step::Add(take_changes(stream)?)),
        2 => Ok(Step::WindBack(stream.take_4()?)),
        3 => Ok(Step::Version { k: stream.take_4()?, out_len: stream.take_4()? }),
        4 => Ok(Step::SetKept(stream.take_4()?)),
        op => Err(format!("there is no step {op}")),
    }
}

/// Takes a story.
fn take_story(stream: &mut Stream) -> Result<Story, String> {
    let first = stream.take_lent()?;
    let room = take_changes(stream)?;
    let kept = stream.take_4()?;
    let steps = (0..stream.take_4()?).map(|_| take_step(stream)).collect::<Result<_, _>>()?;
    Ok(Story { first, room, kept, steps })
}

/// The change that 16 bytes stand for.
fn unpacked(bytes: &[u8]) -> Result<Change, String> {
    let number = |at: usize| u32::from_le_bytes([bytes[at], bytes[at + 1], bytes[at + 2], bytes[at + 3]]);
    if bytes[14..] != [0, 0] {
        return Err("the last two bytes of a change are not zero".to_string());
    }
    Ok(Change { port: number(0), part: number(4), at: number(8), old: bytes[12], new: bytes[13] })
}

impl Iterator for Stories<'_> {
    type Item = Result<Story, String>;

    fn next(&mut self) -> Option<Self::Item> {
        self.0.next(take_story)
    }
}
