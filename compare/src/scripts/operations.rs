//! Every expression of few nodes, in two spellings: with each operand in parentheses, and with none in
//! any. The first have every tree; the second are what parentheses must not be lost from.

/// What stands before and after an expression.
const ROUND: [&str; 2] = ["var a;fn f(x){}", ";"];

const LEAVES: [&str; 2] = ["1", "a"];

/// What stands before and after the one operand of a node. The space keeps `]` from the next one.
const ROUND_ONE: [[&str; 2]; 6] =
    [["-", ""], ["!", ""], ["f(", ")"], ["a[", " ]"], ["a.", ""], ["a=", ""]];

/// What stands between two operands and after them; the first two come after a target.
const BETWEEN_TWO: [[&str; 3]; 10] = [
    ["a[", " ]=", ""],
    ["print(", ",", ")"],
    ["", "||", ""],
    ["", "&&", ""],
    ["", "==", ""],
    ["", "<", ""],
    ["", "+", ""],
    ["", "-", ""],
    ["", "*", ""],
    ["", "%", ""],
];

/// Visits a script with each expression of up to `most` nodes, targets not counted.
pub fn every(most: usize, mut visit: impl FnMut(&[u8])) {
    for parens in [["(", ")"], ["", ""]] {
        for expr in expressions(most, parens).concat() {
            visit([ROUND[0], &expr, ROUND[1]].concat().as_bytes());
        }
    }
}

/// The expressions of each number of nodes, from 0 on.
fn expressions(most: usize, [open, close]: [&str; 2]) -> Vec<Vec<String>> {
    let mut sized: Vec<Vec<String>> = vec![Vec::new()];
    for size in 1..=most {
        let operands = |size: usize| sized[size].iter().map(|expr| [open, expr, close].concat());
        let mut exprs: Vec<String> = Vec::new();
        if size == 1 {
            exprs.extend(LEAVES.map(str::to_string));
        }
        for operand in operands(size - 1) {
            exprs.extend(ROUND_ONE.map(|[before, after]| [before, &operand, after].concat()));
        }
        for left_size in 1..size.saturating_sub(1) {
            for left in operands(left_size) {
                for right in operands(size - 1 - left_size) {
                    let all = BETWEEN_TWO.map(|[a, b, c]| [a, &left, b, &right, c].concat());
                    exprs.extend(all);
                }
            }
        }
        sized.push(exprs);
    }
    sized
}

#[cfg(test)]
mod tests {
    use super::*;

    #[test]
    fn there_is_every_expression() {
        let sized = expressions(3, ["(", ")"]);
        let counts: Vec<usize> = sized.iter().map(Vec::len).collect();
        assert_eq!(counts, [0, 2, 6 * 2, 6 * 12 + 10 * 4]);
        assert!(sized[3].contains(&"(1)%(a)".to_string()));
        assert!(sized[3].contains(&"a[(a) ]=(1)".to_string()));
        assert!(sized[2].contains(&"a.(1)".to_string()));
        assert!(expressions(3, ["", ""])[3].contains(&"-a.1".to_string()));
    }
}
