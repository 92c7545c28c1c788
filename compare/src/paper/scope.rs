//! Demand 3 of an answer's words: a fresh variable stands inside what binds its number, a solution, an exists or a let; a let's is bound in its
//! body, and not in its binding.

use super::judge::{App, Judge, Node};
use super::refusal::*;
use crate::call::{Operation, Refusal};

/// The numbers that a solution's parameters bind, and the expressions of an answer.
type Parts<'w> = (Vec<u64>, Vec<Node<'w>>);

/// Whether every fresh variable of an accepted answer is bound where it stands.
pub fn scoped(op: Operation, words: &[u32]) -> bool {
    let Ok((mut scope, nodes)) = parts(op, words) else { return false };
    nodes.iter().all(|node| bound(node, &mut scope))
}

fn parts(op: Operation, words: &[u32]) -> Result<Parts<'_>, Refusal> {
    let mut judge = Judge::alone(words);
    let parts = match op {
        Operation::ReadOne | Operation::ReadAll | Operation::Sort => return Ok((Vec::new(), Vec::new())),
        Operation::Expression => (Vec::new(), vec![judge.expr(0)?]),
        Operation::Bind => (Vec::new(), predicates(&mut judge)?),
        Operation::Solution => (numbers(judge.binders()?)?, vec![judge.expr(0)?]),
    };
    judge.end()?;
    Ok(parts)
}

/// The expressions of a bind; a kvar's arguments are named variables.
fn predicates<'w>(judge: &mut Judge<'w>) -> Result<Vec<Node<'w>>, Refusal> {
    judge.skip(2)?;
    judge.sort()?;
    let mut found = Vec::new();
    for _ in 0..judge.word()? {
        match judge.word()? {
            64 => {
                judge.skip(2)?;
                let arguments = judge.word()?;
                judge.skip(3 * arguments as usize)?;
            }
            65 => found.push(judge.expr(0)?),
            _ => return Err(NO_WORDS),
        }
    }
    Ok(found)
}

fn number(low: u32, high: u32) -> u64 {
    u64::from(high) << 32 | u64::from(low)
}

/// The numbers of a count and so many numbers with their sorts.
fn numbers(binders: &[u32]) -> Result<Vec<u64>, Refusal> {
    let mut judge = Judge::alone(binders);
    let mut found = Vec::new();
    for _ in 0..judge.word()? {
        found.push(number(judge.word()?, judge.word()?));
        judge.sort()?;
    }
    Ok(found)
}

/// Whether every fresh variable of a node is one of the scope, or bound inside the node round it.
fn bound(node: &Node, scope: &mut Vec<u64>) -> bool {
    match node {
        Node::App(App { arguments, head, .. }) => arguments.iter().all(|node| bound(node, scope)) && bound(head, scope),
        Node::Plain([36, low, high], _) => scope.contains(&number(*low, *high)),
        Node::Plain([51, binders @ ..], children) => within(&numbers(binders).expect("judged"), &children[0], scope),
        Node::Plain([52, low, high], children) => bound(&children[0], scope) && within(&[number(*low, *high)], &children[1], scope),
        Node::Plain(_, children) => children.iter().all(|node| bound(node, scope)),
    }
}

/// The same of a body in which these numbers are bound besides.
fn within(numbers: &[u64], body: &Node, scope: &mut Vec<u64>) -> bool {
    let before = scope.len();
    scope.extend(numbers);
    let holds = bound(body, scope);
    scope.truncate(before);
    holds
}
