//! The lengths of the arrays that a reading call is lent.

use super::{Case, Needs, Rooms};
use crate::scripts::random::Random;

/// Ample; exactly full; one too short for each of the four things that are counted; none at all; tokens
/// only; some sizes in between; and one pair of unequal arrays. The script fixes the random ones.
pub fn usual(case: &Case) -> Vec<Rooms> {
    let needs = case.needs();
    let mut random = Random::new(u64::from(case.tokens.salt(0)));
    let mut rooms = vec![ample(needs), Rooms::for_needs(needs, 0), Rooms([0; 7])];
    rooms.extend(one_short(needs));
    rooms.push(Rooms::for_needs(Needs { tokens: needs.tokens, ..NONE }, 3));
    rooms.extend((0..2).map(|_| between(needs, &mut random)));
    rooms.push(uneven(needs, random.below(6)));
    rooms
}

const NONE: Needs = Needs { tokens: 0, nodes: 0, symbols: 0, errors: 0 };

fn ample(needs: Needs) -> Rooms {
    let Needs { tokens, nodes, symbols, errors } = needs;
    let more =
        Needs { tokens: tokens + 3, nodes: nodes + 5, symbols: symbols + 2, errors: errors + 1 };
    Rooms::for_needs(more, 1)
}

/// One short in one thing; for symbols, one word.
fn one_short(needs: Needs) -> Vec<Rooms> {
    let Needs { tokens, nodes, symbols, errors } = needs;
    let mut rooms = Vec::new();
    if let Some(tokens) = tokens.checked_sub(1) {
        rooms.push(Rooms::for_needs(Needs { tokens, ..needs }, 0));
    }
    if let Some(nodes) = nodes.checked_sub(1) {
        rooms.push(Rooms::for_needs(Needs { nodes, ..needs }, 0));
    }
    if let Some(symbols) = symbols.checked_sub(1) {
        rooms.push(Rooms::for_needs(Needs { symbols, ..needs }, 3));
    }
    if let Some(errors) = errors.checked_sub(1) {
        rooms.push(Rooms::for_needs(Needs { errors, ..needs }, 0));
    }
    rooms
}

/// Enough tokens, and any number of the rest.
fn between(needs: Needs, random: &mut Random) -> Rooms {
    let mut up_to = |most: usize| random.below(most + 1);
    let (nodes, symbols, errors) = (up_to(needs.nodes), up_to(needs.symbols), up_to(needs.errors));
    Rooms::for_needs(Needs { nodes, symbols, errors, ..needs }, random.below(4))
}

/// Exactly full, but for one array that is one element longer: of the symbols there is only one.
fn uneven(needs: Needs, which: usize) -> Rooms {
    let mut rooms = Rooms::for_needs(needs, 0);
    rooms.0[[0, 1, 2, 3, 5, 6][which]] += 1;
    rooms
}

/// Every number of nodes, symbols and errors up to one more than is needed, every number of tokens, and
/// every pair of unequal arrays.
pub fn every(case: &Case) -> Vec<Rooms> {
    let needs = case.needs();
    let mut rooms = vec![ample(needs), Rooms([0; 7])];
    rooms.extend((0..6).map(|which| uneven(needs, which)));
    rooms.extend(
        (0..=needs.tokens + 1).map(|tokens| Rooms::for_needs(Needs { tokens, ..needs }, 0)),
    );
    for nodes in 0..=needs.nodes + 1 {
        for symbols in 0..=needs.symbols + 1 {
            let all =
                (0..=needs.errors + 1).map(|errors| Needs { nodes, symbols, errors, ..needs });
            rooms.extend(all.map(|needs| Rooms::for_needs(needs, needs.nodes % 4)));
        }
    }
    rooms
}
