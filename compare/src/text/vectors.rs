//! Worked canonical texts.

use crate::host::TextCall;
use crate::reading::{Needs, Rooms};
use crate::text::{called, TextRooms};
use crate::tokens::same;

/// A script, and its text.
pub type Vector = (&'static str, &'static str);

pub const VECTORS: &[Vector] = &[
    ("", ""),
    ("$", ""),
    ("# c", ""),
    ("var a=(1+2)*3;", "var a = ( 1 + 2 ) * 3 ;\n"),
    ("1;", "1 ;\n"),
    ("(1);", "1 ;\n"),
    ("((1 ) ) // c\n; # c", "1 ;\n"),
    ("{ var a = 1; } { a; }", "{ var a = 1 ; }\n{ a ; }\n"),
    ("if true { } else { } else { }", "if true { } else { } else { }\n"),
    ("if 1{}else{}elif 2{}", "if 1 { } else { } elif 2 { }\n"),
    // parentheses: a left operand weaker than its operator, a right operand not stronger
    ("(1*2)%3; 1*(2%3);", "( 1 * 2 ) % 3 ;\n1 * 2 % 3 ;\n"),
    ("1-(2-3)-4;", "1 - ( 2 - 3 ) - 4 ;\n"),
    ("(1-2)-3; 1||(2&&3)||4;", "1 - 2 - 3 ;\n1 || 2 && 3 || 4 ;\n"),
    ("((1+2)*3+4)*5;", "( ( 1 + 2 ) * 3 + 4 ) * 5 ;\n"),
    ("(1==2)<(3!=4);", "( 1 == 2 ) < ( 3 != 4 ) ;\n"),
    // a unary operand below 8
    ("-(-1); !(1<2); -(1)%2; -(1%2);", "- - 1 ;\n! ( 1 < 2 ) ;\n- 1 % 2 ;\n- ( 1 % 2 ) ;\n"),
    // assignments and table access are the weakest, and what they hold stands bare
    ("var a; (a)=(a=(1)); 1+(a=2);", "var a ;\na = a = 1 ;\n1 + ( a = 2 ) ;\n"),
    ("var a; -(a.b); 1+a.b+2;", "var a ;\n- ( a . b ) ;\n1 + ( a . b + 2 ) ;\n"),
    ("var a; (a.b)+1; a.(b+1);", "var a ;\n( a . b ) + 1 ;\na . b + 1 ;\n"),
    (
        "var a; (a[(0)])=((1)); @a[1]; (a)[2]+3;",
        "var a ;\na [ 0 ] = 1 ;\na [ 1 ] ;\na [ 2 ] + 3 ;\n",
    ),
    ("var a; (a[0]=1)+2; -(a[0]);", "var a ;\n( a [ 0 ] = 1 ) + 2 ;\n- a [ 0 ] ;\n"),
    (
        "print((1),(2+3),); @print(); \"print\"(1);",
        "print ( 1 , 2 + 3 ) ;\nprint ( ) ;\n\"print\" ( 1 ) ;\n",
    ),
    // declarations
    ("var x=[1,(2),]; var y=[];", "var x = [ 1 , 2 ] ;\nvar y = [ ] ;\n"),
    (
        "var t=[[a=>\"s\",a=>(1)]]; var u=[[]];",
        "var t = [[ a => \"s\" , a => 1 ]] ;\nvar u = [[ ]] ;\n",
    ),
    ("fn f(a,b,){a;}fn g(){return;}", "fn f ( a , b ) { a ; return ; }\nfn g ( ) { return ; }\n"),
    (
        "fn f(){return 1;}fn g(){{return 1;}}",
        "fn f ( ) { return 1 ; }\nfn g ( ) { { return 1 ; } return ; }\n",
    ),
    ("for i,j in (print) {print(i);}", "for i , j in print { print ( i ) ; }\n"),
    // literals as in the source
    ("007.50 ; 1. ;\"a\n b\"; true;", "007.50 ;\n1. ;\n\"a\n b\" ;\ntrue ;\n"),
    ("1.2.3; 1..a;", "1.2 . 3 ;\n1. . a ;\n"),
];

/// Checks that a call writes the text that is told.
pub fn check(call: TextCall, (script, text): &Vector) -> Result<(), String> {
    let most = script.len() + 1;
    let needs = Needs { tokens: most, nodes: most, symbols: most, errors: most };
    let rooms = TextRooms { arrays: Rooms::for_needs(needs, 0), text: text.len() };
    let called = called(call, script.as_bytes(), rooms);
    let written = String::from_utf8_lossy(called.written()?).into_owned();
    same("told text", written.as_str(), text)
}
