//! The checks of a key, in number order: 2 to 8 over all that is lent, whatever the key, and 13.
use crate::edit_checks::lent;
use crate::key_calls::Does;
use crate::key_case::Case;
use crate::key_reading::is_foreign;
use crate::kill_ring::{KillRing, slots};
use crate::line_calls::{Args, Param};
use crate::ring_calls::{self, ENTRIES, YANK, YANK_POP};
use crate::ring_checks::Loan;

/// What a ring gives to a yank: the text, and with yank_pop the size of the yank before.
#[derive(Clone)]
pub struct Given {
    pub text: Vec<u8>,
    pub size: usize,
}

/// The Rust's ring of a loan that the checks pass; else the number of the check that fails.
fn sound(loan: &Loan) -> Result<KillRing, u32> {
    if loan.is_oversized() {
        return Err(2);
    }
    let texts = loan.texts().ok_or(8u32)?;
    Ok(slots::ring(&loan.ring, &texts))
}

/// What the ring's call gives, tried on a copy; none where it gives none, is refused, or is not the key's.
pub fn given(loan: &Loan, does: Does) -> Option<Given> {
    let name = match does {
        Does::Yank => YANK,
        Does::YankPop => YANK_POP,
        _ => return None,
    };
    let mut ring = sound(loan).ok()?;
    let (slot, size) = (ENTRIES[ring_calls::row(name)].rust)(&mut ring, &ring_calls::Args::default())?;
    Some(Given { text: slots::texts(&ring)[slot].clone().into_bytes(), size })
}

/// The lowest number by which a key is refused whatever it does: text, cursor, log, ring and its own bytes; with them
/// the line's own tests of what the ring gives.
pub fn refusal(case: &Case, key: &[u8], does: Does, given: Option<&Given>) -> Option<u32> {
    let mut args = Args::default();
    let uses: &[Param] = match given {
        None => &[],
        Some(_) if does == Does::Yank => &[Param::Buf],
        Some(_) => &[Param::Size, Param::Buf],
    };
    if let Some(Given { text, size }) = given {
        (args.buf, args.size) = (text.clone(), *size);
    }
    let line = lent(&case.line.input(uses, &args), Vec::new).err();
    let ring = sound(&case.ring.loan()).err();
    let foreign = is_foreign(key).then_some(4);
    let unbound = (does == Does::Nothing).then_some(13);
    [line, ring, foreign, unbound].into_iter().flatten().min()
}
