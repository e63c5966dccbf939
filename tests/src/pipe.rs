//! Calls of the library over a pipe, for a program that cannot have its x86-64 code in it: the far
//! end is `tests/pipe/answer.c`, compiled and run as `tests/pipe/compile` and `scripts/run-program`
//! do it on this processor. There each room lies between guard bytes, and all its bytes come back.
//!
//! The bench uses this file too.

use std::env;
use std::io::{self, Read, Write};
use std::path::{Path, PathBuf};
use std::process::{Child, ChildStdin, ChildStdout, Command, Stdio};
use std::sync::Mutex;

/// The calls by their numbers; answer.c has the same.
pub const SCRATCH_WORDS: u32 = 1;
pub const BUILD: u32 = 2;
pub const CLASSIFY: u32 = 3;
pub const SCAN: u32 = 4;
pub const LAMP: u32 = 5;
pub const JUDGE: u32 = 6;
pub const CLEAR: u32 = 7;
pub const FIELD: u32 = 8;
/// No calls of the library: classifying that answers at once, by which instructions are counted, and
/// touching a byte beside a room, to see that this is found.
pub const NOTHING: u32 = 254;
pub const OVERRUN: u32 = 255;

const NUMBERS: usize = 5;
const ROOMS: usize = 6;
const HEAD: usize = 16;

/// The words of an answer; a call uses the first ones.
pub type Words = [u32; HEAD - 1];

/// Where the rooms of a call lie: somewhere, or against memory that nobody may touch.
#[derive(Clone, Copy, PartialEq, Eq, Debug)]
pub enum Place {
    Middle,
    Front,
    Back,
}

/// A piece of memory that a call is lent.
pub enum Room<'a> {
    Bytes(&'a [u8]),
    Shown(&'a [u32]),
    Lent(&'a mut [u32]),
}

impl Room<'_> {
    fn bytes(&self) -> usize {
        match self {
            Room::Bytes(bytes) => bytes.len(),
            Room::Shown(words) => 4 * words.len(),
            Room::Lent(words) => 4 * words.len(),
        }
    }

    fn send(&self, message: &mut Vec<u8>) {
        match self {
            Room::Bytes(bytes) => message.extend_from_slice(bytes),
            Room::Shown(words) => message.extend(words.iter().flat_map(|word| word.to_le_bytes())),
            Room::Lent(words) => message.extend(words.iter().flat_map(|word| word.to_le_bytes())),
        }
    }

    /// Takes back what was lent; whether what was only shown is as it was.
    fn take(&mut self, back: &[u8]) -> bool {
        let words = words(back);
        match self {
            Room::Bytes(bytes) => return *bytes == back,
            Room::Shown(shown) => return words.eq(shown.iter().copied()),
            Room::Lent(lent) => lent.iter_mut().zip(words).for_each(|(old, new)| *old = new),
        }
        true
    }
}

/// One call: its number, where its rooms lie, and the numbers that it is given beside them.
pub struct Call<'a> {
    pub call: u32,
    pub place: Place,
    pub numbers: &'a [u32],
}

struct Far {
    child: Child,
    to: ChildStdin,
    from: ChildStdout,
    message: Vec<u8>,
}

static FAR: Mutex<Option<Far>> = Mutex::new(None);

/// Makes a call that must stay inside what it is lent.
pub fn call(call: Call, rooms: &mut [Room]) -> Words {
    attempt(call, rooms).unwrap_or_else(|said| panic!("{said}"))
}

/// Makes a call and answers its words, or what it did that no call may do; the rooms are then as the
/// call left them. The far end is started for the first call, and again after one that ended it.
pub fn attempt(call: Call, rooms: &mut [Room]) -> Result<Words, String> {
    let mut slot = FAR.lock().expect("no call panics");
    let mut far = slot.take().map_or_else(Far::start, Ok)?;
    let (touched, words) = match far.answer(&call, rooms) {
        Ok(answer) => answer,
        Err(error) => {
            return Err(format!("the far end of the pipe: {error}, {:?}", far.child.wait()))
        }
    };
    let kept = far.take_back(rooms);
    *slot = Some(far);
    match (touched, kept) {
        (0, None) => Ok(words),
        (0, Some(room)) => Err(format!("room {room}, lent for reading, was written")),
        (beside, _) => Err(format!("bytes beside room {} were written", beside - 1)),
    }
}

fn words(bytes: &[u8]) -> impl Iterator<Item = u32> + '_ {
    bytes.chunks_exact(4).map(|four| u32::from_le_bytes(four.try_into().expect("four bytes")))
}

fn root() -> PathBuf {
    Path::new(env!("CARGO_MANIFEST_DIR")).join("..")
}

impl Far {
    fn start() -> Result<Far, String> {
        // Beside the running program, under a name of its own, since several may run at once.
        let here = env::current_exe().map_err(|error| error.to_string())?;
        let program = here.with_extension(format!("{}.answer", std::process::id()));
        let mut compile = Command::new(root().join("tests/pipe/compile"));
        let made = compile.arg(root().join("tests/pipe/answer.c")).arg(&program).status();
        if !made.is_ok_and(|status| status.success()) {
            return Err("tests/pipe/compile failed".to_string());
        }
        let mut run = Command::new(root().join("scripts/run-program"));
        run.arg(&program).stdin(Stdio::piped()).stdout(Stdio::piped());
        let mut child = run.spawn().map_err(|error| format!("scripts/run-program: {error}"))?;
        let to = child.stdin.take().expect("a pipe");
        let from = child.stdout.take().expect("a pipe");
        let mut far = Far { child, to, from, message: Vec::new() };
        let first = Call { call: SCRATCH_WORDS, place: Place::Middle, numbers: &[] };
        let answered = far.answer(&first, &mut []);
        // It runs now or never will, so that its file can go.
        let _ = std::fs::remove_file(&program);
        answered.map_err(|error| format!("the far end of the pipe does not begin: {error}"))?;
        Ok(far)
    }

    /// Sends a call and reads its answer: the room beside which bytes were written, counted from 1,
    /// or 0; and the call's words. The rooms' bytes are left in the message.
    fn answer(&mut self, call: &Call, rooms: &[Room]) -> io::Result<(u32, Words)> {
        self.message.clear();
        self.message.extend(head(call, rooms).iter().flat_map(|word| word.to_le_bytes()));
        for room in rooms {
            room.send(&mut self.message);
        }
        self.to.write_all(&self.message)?;
        self.message.resize(4 * HEAD + rooms.iter().map(Room::bytes).sum::<usize>(), 0);
        self.from.read_exact(&mut self.message)?;
        let mut answer = words(&self.message[..4 * HEAD]);
        let touched = answer.next().expect("the head's first word");
        let mut rest = [0; HEAD - 1];
        rest.iter_mut().zip(answer).for_each(|(word, new)| *word = new);
        Ok((touched, rest))
    }

    /// Takes the rooms back; the number of one that was only shown and is not as it was.
    fn take_back(&self, rooms: &mut [Room]) -> Option<usize> {
        let mut rest = &self.message[4 * HEAD..];
        let mut changed = None;
        for (i, room) in rooms.iter_mut().enumerate() {
            let (bytes, more) = rest.split_at(room.bytes());
            rest = more;
            if !room.take(bytes) {
                changed = Some(i);
            }
        }
        changed
    }
}

fn head(call: &Call, rooms: &[Room]) -> [u32; HEAD] {
    let mut head = [0; HEAD];
    let shown = |room: &Room| !matches!(room, Room::Lent(_));
    let bits = rooms.iter().enumerate().filter(|(_, room)| shown(room));
    head[0] = call.call;
    head[1] = call.place as u32;
    head[2] = bits.fold(0, |set, (i, _)| set | 1 << i);
    head[3] = rooms.len() as u32;
    head[4..4 + NUMBERS][..call.numbers.len()].copy_from_slice(call.numbers);
    for (word, room) in head[4 + NUMBERS..][..ROOMS].iter_mut().zip(rooms) {
        *word = room.bytes() as u32;
    }
    head
}
