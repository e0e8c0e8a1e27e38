//! Lists of requests to one service: the lines that the program `towerd` reads
//! and what it has to print for each. Lines that are no request are among them.

mod before;
mod calls;
mod damage;
mod drawn;
mod ends;
mod faults;
mod long;
mod spoiled;
mod standing;
mod towers;

use crate::outputs::OutputFile;
use crate::requests::{parse, session, Fault, Request};

pub(crate) use drawn::shuffled;

/// A line of `stdin`.
#[derive(Clone, Debug, PartialEq, Eq)]
pub struct Line {
    /// Without its newline.
    pub text: Vec<u8>,
    /// What it asks for, or what is wrong with it.
    pub meaning: Result<Request, Fault>,
}

impl Line {
    /// A request in a spelling of its own.
    fn spelled(text: impl AsRef<[u8]>, request: Request) -> Line {
        Line {
            text: text.as_ref().to_vec(),
            meaning: Ok(request),
        }
    }

    /// A text that is no request.
    fn wrong(text: impl AsRef<[u8]>, fault: Fault) -> Line {
        Line {
            text: text.as_ref().to_vec(),
            meaning: Err(fault),
        }
    }

    /// A text that may mean anything.
    fn any(text: Vec<u8>) -> Line {
        let meaning = parse(&text);
        Line { text, meaning }
    }
}

impl From<Request> for Line {
    fn from(request: Request) -> Line {
        Line::spelled(request.text(), request)
    }
}

/// Lines that belong together. The service keeps its tower from list to list, so
/// each list but the very first begins with an erect that is accepted.
#[derive(Clone, Debug, PartialEq, Eq)]
pub struct List {
    /// What it is; drawn lists share a name.
    pub name: &'static str,
    /// In their order.
    pub lines: Vec<Line>,
}

impl List {
    /// Requests in their plain spelling.
    fn new(name: &'static str, requests: impl IntoIterator<Item = Request>) -> List {
        let lines = requests.into_iter().map(Line::from).collect();
        List { name, lines }
    }
}

/// All lists, the same each time.
pub fn lists() -> Vec<List> {
    [
        vec![before::list()],
        standing::lists(),
        ends::lists(),
        drawn::lists(),
        vec![long::list()],
    ]
    .concat()
}

/// `stdin` and `stdout` of the program. The last line has no newline.
pub fn files() -> Vec<OutputFile> {
    let lists = lists();
    let lines = lists.iter().flat_map(|list| &list.lines);
    let texts: Vec<&[u8]> = lines.map(|line| line.text.as_slice()).collect();
    let stdin = texts.join(&b'\n');
    let stdout = session(&stdin);
    let files = [("stdin", stdin), ("stdout", stdout)];
    files
        .map(|(name, bytes)| OutputFile { name, bytes })
        .to_vec()
}
