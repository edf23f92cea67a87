//! One symbol, read by the product, by the crate and by the plain model: how they compare.
use unchecked::ParseResult;

use crate::answers::{self, Answer};
use crate::limits::{ACCEPTED, CELLS, DEEPEST, MOST_NODES};
use crate::model::Demands;
use crate::reading::{self, Reading};
use crate::refusals::{self, Refusal};
use crate::shape::Shape;

/// How the readings of a symbol compare.
pub enum Verdict {
    Accepted,
    Refused,
    /// Not compared with the crate, for this reason.
    LeftOut(&'static str),
    Different(String),
}

/// Whether the product's table is the crate's tree, and the counts are those of the table.
fn right_table(symbol: &str, ours: Reading, table: &[u32], tree: &ParseResult) -> bool {
    let (nodes, _) = table.as_chunks::<CELLS>();
    let nodes = &nodes[..ours.nodes];
    let shape = Shape { symbol: symbol.as_bytes(), nodes };
    shape.is(tree)
        && shape.has_no_other_node()
        && nodes.last().is_some_and(|root| root[1] as usize == ours.depth)
}

/// How the answer, or the counts of an accepted symbol, differ from those of the plain model.
fn difference_from_model(ours: Reading, demands: &Demands) -> Option<String> {
    let (number, offset, _) = demands.within(DEEPEST.into(), MOST_NODES);
    let (depth, nodes) = demands.counts();
    let model = Reading { number, offset, depth, nodes };
    let same = match number {
        ACCEPTED => ours == model,
        _ => ours.answer() == model.answer(),
    };
    (!same).then(|| format!("{ours:?}, the model {model:?}"))
}

/// The answer and the tree without the crate's checks, and the trap of its checks, if there is one.
type Decision<'a> = (Answer, Option<ParseResult<'a>>, Option<String>);

/// An error where the crate's two builds answer differently.
fn decided(symbol: &str) -> Result<Decision<'_>, String> {
    let (answer, tree) = answers::unchecked(symbol);
    let (decided, trap) = answers::decided(symbol);
    match decided == answer {
        true => Ok((answer, tree, trap)),
        false => Err(format!("the crate {answer:?}, with its checks {decided:?}")),
    }
}

/// The verdict, and the trap of the crate's checks, if there is one: then the crate without them
/// decides.
pub fn compare(symbol: &str, table: &mut [u32]) -> (Verdict, Option<String>) {
    let ours = reading::read(symbol.as_bytes(), DEEPEST, table);
    let demands = Demands::of(symbol.as_bytes());
    if let Some(difference) = difference_from_model(ours, &demands) {
        return (Verdict::Different(difference), None);
    }
    if demands.too_heavy() {
        return (Verdict::LeftOut("too heavy for the crate"), None);
    }
    if let Some(reason) = refusals::unasked(symbol, &demands) {
        return (Verdict::LeftOut(reason), None);
    }
    let (theirs, tree, trap) = match decided(symbol) {
        Ok(decision) => decision,
        Err(difference) => return (Verdict::Different(difference), None),
    };
    let verdict = match (ours.number, theirs, tree) {
        (ACCEPTED, Ok(consumed), Some(tree)) if consumed == ours.offset => {
            match right_table(symbol, ours, table, &tree) {
                true => Verdict::Accepted,
                false => Verdict::Different(format!("{ours:?}, but not the tree {tree:?}")),
            }
        }
        (_, theirs, _) => match refusals::judge(symbol, ours.answer(), theirs) {
            Refusal::Same => Verdict::Refused,
            Refusal::LeftOut(reason) => Verdict::LeftOut(reason),
            Refusal::Different(difference) => Verdict::Different(difference),
        },
    };
    (verdict, trap)
}
