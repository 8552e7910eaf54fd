//! The calls of group q on plans of at most 64 points, by the library's entries for C.

use outside::definition::wide::{Verdict, WORDS};
use outside::definition::{failure_code, Kind, NONE_BARRED};
use outside::entry::{guarded_carry_on, guarded_judge};
use outside::graphs::wide::to_plan;

use super::{Lists, Plan};

/// The most points of the narrow form.
const MOST: usize = 64;

/// The plan as the entries take it, if it has whole rows, at most 64, and no bit at or above 64.
fn narrow(plan: &Plan) -> Option<Vec<u8>> {
    let (rows, rest) = plan.table.as_chunks::<WORDS>();
    let fits = rest.is_empty()
        && rows.len() <= MOST
        && rows.iter().all(|row| row[1..].iter().all(|&word| word == 0));
    fits.then(|| to_plan(&plan.table))
}

/// Entries above 255 become 255: no point of such a plan, either.
fn bytes(list: &[u16]) -> Vec<u8> {
    list.iter().map(|&entry| entry.min(255) as u8).collect()
}

/// Whether the call was made in the narrow form, too; an error if it answered otherwise.
pub fn judge(plan: &Plan, kind: Kind, walk: &[u16], verdict: Verdict) -> Result<bool, String> {
    let Some(rows) = narrow(plan) else { return Ok(false) };
    let expected = match verdict {
        Verdict::Passes => 0,
        Verdict::Fails((a, b, c)) => failure_code(a, b, c),
        Verdict::Refused(number) => number,
    };
    let answer = guarded_judge(kind, plan.mark, &rows, NONE_BARRED, &bytes(walk))?;
    if answer != expected {
        return Err(format!("the narrow form answers {answer} and not {expected}"));
    }
    Ok(true)
}

/// The same for carry-on, with its output list afterwards.
pub fn carry_on(
    plan: &Plan,
    kind: Kind,
    lists: &Lists,
    answer: Result<(), u32>,
    after: &[u16],
) -> Result<bool, String> {
    let Some(rows) = narrow(plan) else { return Ok(false) };
    let Lists { tie_break, output, k } = lists;
    let expected = (answer.err().unwrap_or(0), bytes(after));
    let (tie_break, output) = (bytes(tie_break), bytes(output));
    let told = guarded_carry_on(kind, plan.mark, &rows, NONE_BARRED, &tie_break, &output, *k)?;
    if told != expected {
        return Err(format!("the narrow form answers {told:?} and not {expected:?}"));
    }
    Ok(true)
}
