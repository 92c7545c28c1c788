//! Flattening of arbitrary words: when they are judged, applications of applications are joined.

use super::judge::{App, Judge, Node};
use super::refusal::*;
use crate::call::{Answer, Refusal};

/// The words of the flattened expression.
pub fn flatten(words: &[u32], out: usize) -> Result<Answer, Refusal> {
    let mut judge = Judge::alone(words);
    let node = judge.expr(0)?;
    judge.end()?;
    let mut flat = Vec::new();
    uncurry(node).write(&mut flat)?;
    if flat.len() > out {
        return Err(NO_ROOM);
    }
    Ok(Answer { a: flat.len() as u64, b: 0, count: 0, words: flat })
}

/// Whether an expression of this kind is met in words to flatten, which may be refused behind it.
pub fn meets(kind: u32, words: &[u32]) -> bool {
    let mut judge = Judge::alone(words);
    let judged = judge.expr(0);
    drop(judged);
    judge.met(kind)
}

/// An application whose flattened head is an application takes that head's head, its arguments followed by its own, and its own sort.
fn uncurry(node: Node) -> Node {
    let all = |nodes: Vec<_>| nodes.into_iter().map(uncurry).collect::<Vec<_>>();
    match node {
        Node::Plain(fields, children) => Node::Plain(fields, all(children)),
        Node::App(App { arguments, sort, head }) => {
            let own = all(arguments);
            match uncurry(*head) {
                Node::App(inner) => {
                    let arguments = inner.arguments.into_iter().chain(own).collect();
                    Node::App(App { arguments, sort, head: inner.head })
                }
                head => Node::App(App { arguments: own, sort, head: Box::new(head) }),
            }
        }
    }
}

impl Node<'_> {
    /// A count is one word.
    fn write(&self, out: &mut Vec<u32>) -> Result<(), Refusal> {
        match self {
            Node::Plain(fields, children) => {
                out.extend_from_slice(fields);
                children.iter().try_for_each(|c| c.write(out))
            }
            Node::App(App { arguments, sort, head }) => {
                let n = u32::try_from(arguments.len()).map_err(|_| NO_ROOM)?;
                out.extend_from_slice(&[38, sort.is_some() as u32, n]);
                arguments.iter().try_for_each(|a| a.write(out))?;
                out.extend_from_slice(sort.unwrap_or(&[]));
                head.write(out)
            }
        }
    }
}
