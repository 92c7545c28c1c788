//! Document 02, C-11: a solution's words as a list of sorted variables, a space and one term of SMT-LIB 2.6.

use super::judge::{App, Judge, Node};
use super::refusal::*;
use super::theory;
use crate::call::Refusal;

/// What is written; all of it is ASCII, since no other byte of a name or string may stand in it.
type Written = Result<String, Refusal>;

/// What stands for the words of a solution whose spans lie in the text, in a slice of so many bytes.
pub fn smtlib(words: &[u32], text: &[u8], out: usize) -> Written {
    let (list, term) = parts(words, text, out)?;
    Ok(format!("{list} {term}"))
}

/// Whether an expression of this kind is met in a solution's words, which may be refused behind it.
pub fn solution_meets(kind: u32, words: &[u32], text: &[u8]) -> bool {
    let mut judge = Judge::with_text(words, text);
    let judged = judge.binders().and_then(|_| judge.expr(0));
    drop(judged);
    judge.met(kind)
}

/// The list and the term, which have a space between them.
pub fn parts(words: &[u32], text: &[u8], out: usize) -> Result<(String, String), Refusal> {
    let mut judge = Judge::with_text(words, text);
    let parameters = judge.binders()?;
    let body = judge.expr(0)?;
    judge.end()?;
    let writer = Writer { text };
    let list = writer.variables(parameters)?;
    let term = writer.term(&body)?;
    if list.len() + 1 + term.len() > out {
        return Err(NO_ROOM);
    }
    Ok((list, term))
}

/// A head and what is behind it, one space apart.
fn list(head: &str, items: &[String]) -> String {
    format!("({head} {})", items.join(" "))
}

fn fresh(low: u32, high: u32) -> String {
    format!("|v {}|", u64::from(high) << 32 | u64::from(low))
}

/// Four words, the lowest first.
fn wide(words: [u32; 4]) -> u128 {
    words.iter().rev().fold(0, |n, word| n << 32 | u128::from(*word))
}

struct Writer<'t> {
    text: &'t [u8],
}

impl Writer<'_> {
    /// The bytes of a name or a string. The span was judged before.
    fn spelled(&self, start: u32, bytes: u32) -> Written {
        let span = &self.text[start as usize..][..bytes as usize];
        let plain = |b: &u8| (32..=126).contains(b) && !b"|\"\\".contains(b);
        if !span.iter().all(plain) {
            return Err(UNPRINTABLE);
        }
        Ok(span.iter().map(|b| char::from(*b)).collect())
    }

    fn name(&self, start: u32, bytes: u32) -> Written {
        Ok(format!("|n {}|", self.spelled(start, bytes)?))
    }

    /// The list of a count and so many numbers with their sorts.
    fn variables(&self, binders: &[u32]) -> Written {
        let mut rest = &binders[1..];
        let mut all = Vec::new();
        while let [low, high, sort @ ..] = rest {
            let (sort, behind) = self.sort(sort)?;
            all.push(format!("({} {sort})", fresh(*low, *high)));
            rest = behind;
        }
        Ok(format!("({})", all.join(" ")))
    }

    /// The sort that the words begin with, and the words behind it. Sorts may stand inside one another as deep as the words go on.
    fn sort<'w>(&self, words: &'w [u32]) -> Result<(String, &'w [u32]), Refusal> {
        let (mut sort, mut rest) = (String::new(), words);
        // Of each list that is open, the innermost last: how many sorts of it are still to come.
        let mut open: Vec<u32> = Vec::new();
        loop {
            let (spelling, inside, behind) = self.sort_head(rest)?;
            rest = behind;
            if inside > 0 {
                sort.push('(');
                open.push(inside);
            }
            sort.push_str(&spelling);
            while open.last() == Some(&0) {
                sort.push(')');
                open.pop();
            }
            match open.last_mut() {
                Some(wanted) => *wanted -= 1,
                None => return Ok((sort, rest)),
            }
            sort.push(' ');
        }
    }

    /// How a sort begins, how many sorts stand in it, and the words behind its own.
    fn sort_head<'w>(&self, words: &'w [u32]) -> Result<(String, u32, &'w [u32]), Refusal> {
        match words {
            [1, rest @ ..] => Ok(("Int".into(), 0, rest)),
            [2, rest @ ..] => Ok(("Bool".into(), 0, rest)),
            [3, rest @ ..] => Ok(("Real".into(), 0, rest)),
            [4, rest @ ..] => Ok(("String".into(), 0, rest)),
            [5, 6, width, rest @ ..] if *width > 0 => Ok((format!("(_ BitVec {width})"), 0, rest)),
            [10, 1, 2, rest @ ..] => Ok(("Array".into(), 2, rest)),
            [10, 2, start, bytes, n, rest @ ..] => Ok((format!("|s {}|", self.spelled(*start, *bytes)?), *n, rest)),
            _ => Err(UNWRITABLE),
        }
    }

    fn term(&self, node: &Node) -> Written {
        let (fields, children) = match node {
            Node::Plain(fields, children) => (*fields, &children[..]),
            Node::App(app) => return self.application(app),
        };
        let headed = |head: &str| Ok(list(head, &self.terms(children)?));
        match *fields {
            [32, a, b, c, d] => Ok(wide([a, b, c, d]).to_string()),
            [33, 0] => Ok("false".into()),
            [33, _] => Ok("true".into()),
            [34, start, bytes] => Ok(format!("\"{}\"", self.spelled(start, bytes)?)),
            [35, a, b, c, d, width] => bit_vector(wide([a, b, c, d]), width),
            [36, low, high] => Ok(fresh(low, high)),
            [37, start, bytes] => self.name(start, bytes),
            [39] => headed("-"),
            [40, operator] => headed(["+", "-", "*", "div", "mod"][operator as usize]),
            [41] => headed("ite"),
            [42, _] => self.operands("true", "and", children),
            [43, _] => self.operands("false", "or", children),
            [44] => headed("not"),
            [45] => headed("=>"),
            [46] => headed("="),
            [47, relation] => headed(["=", "distinct", ">", ">=", "<", "<="][relation as usize]),
            [48, start, bytes] => self.let_in(&self.name(start, bytes)?, children),
            [50, start, bytes] => {
                let name = self.name(start, bytes)?;
                headed(&format!("(_ is {name})"))
            }
            [51, 0] => self.term(&children[0]),
            [51, ref binders @ ..] => {
                let variables = self.variables(binders)?;
                headed(&format!("exists {variables}"))
            }
            [52, low, high] => self.let_in(&fresh(low, high), children),
            // 49: a theory function that is no head.
            _ => Err(UNWRITABLE),
        }
    }

    fn terms(&self, nodes: &[Node]) -> Result<Vec<String>, Refusal> {
        nodes.iter().map(|node| self.term(node)).collect()
    }

    /// A let of a name or a number, with its binding and its body.
    fn let_in(&self, variable: &str, nodes: &[Node]) -> Written {
        let [binding, body] = &self.terms(nodes)?[..] else { unreachable!("a binding and a body") };
        Ok(format!("(let (({variable} {binding})) {body})"))
    }

    /// None is the neutral one, and one stands alone.
    fn operands(&self, none: &str, head: &str, nodes: &[Node]) -> Written {
        let terms = self.terms(nodes)?;
        Ok(match &terms[..] {
            [] => none.into(),
            [one] => one.clone(),
            more => list(head, more),
        })
    }

    /// Without arguments it is its head. Its arguments come before its head in the words, and so do their refusals; its output sort is skipped.
    fn application(&self, app: &App) -> Written {
        if app.arguments.is_empty() {
            return self.term(&app.head);
        }
        let arguments = self.terms(&app.arguments)?;
        let head = match &*app.head {
            Node::Plain([36 | 37, ..], _) => self.term(&app.head)?,
            Node::Plain([49, function], _) => theory::bit_vector(*function).ok_or(UNWRITABLE)?.to_string(),
            _ => return Err(UNWRITABLE),
        };
        Ok(list(&head, &arguments))
    }
}

/// A value below 2^width, which no value of four words reaches from a width of 128 on.
fn bit_vector(value: u128, width: u32) -> Written {
    if width == 0 || width < 128 && value >> width > 0 {
        return Err(UNWRITABLE);
    }
    Ok(format!("(_ bv{value} {width})"))
}
