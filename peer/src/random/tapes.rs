//! Random tapes: damage, and prints put together from parts.

use crate::dice::Dice;

/// Cuts, doubles, changes or adds something.
pub fn damage(dice: &mut Dice, tape: &mut Vec<u8>) {
    const ALPHABET: &[u8] = b"ABCDEFGHIJKLMNOPQRSTUVWXYZ&.prw0123456789,s$tbc<>";
    const TEXTS: [&[u8]; 32] = [
        b">>PREV.LAST44>>",
        b">>PREV.LAST0>>",
        b">>",
        b"SELLER0",
        b"SELLER1",
        b"SELLER1234",
        b"RULE127",
        b"RULE12",
        b"$",
        b"s",
        b"SHRS",
        b"100SHRS",
        b"1$",
        b"1s",
        b"5s",
        b",000",
        b"10,000",
        b"0",
        b",",
        b",c",
        b",b",
        b"t",
        b".N",
        b".XD",
        b".BC",
        b".DL",
        b".ND",
        b".SLD",
        b".LAST",
        b"WAS.",
        b"pA",
        b"ABC",
    ];
    let at = dice.below(tape.len() as u64) as usize;
    let to = (at + 1 + dice.below(8) as usize).min(tape.len());
    match dice.below(6) {
        0 | 1 => tape[at] = dice.pick(ALPHABET),
        2 => drop(tape.drain(at..to)),
        3 => drop(tape.splice(at..at, tape[at..to].to_vec())),
        4 => tape.truncate(at + 1),
        _ => drop(tape.splice(at..at, dice.pick(&TEXTS).iter().copied())),
    }
}

/// Mostly a lawful text, now and then an odd one.
fn pick(dice: &mut Dice, lawful: &[&'static str], odd: &[&'static str]) -> &'static str {
    let from = if dice.below(10) == 0 { odd } else { lawful };
    dice.pick(from)
}

/// Parts of prints, lawful or nearly so, in the order of a print.
pub fn composed(dice: &mut Dice) -> Vec<u8> {
    let begin = dice.pick(&["", "<<CORR.", "<<CORR.", "<<CXL.", "<<ERR."]);
    let name = [
        pick(dice, &["ABC", "A", "ABCDEF", "ND"], &["ABCDEFG", "SHRS", "RULE", "SELLER", ""]),
        pick(dice, &["", "", "", ".A", ".A.N", "pA", "pCV.CL", "rw"], &[".N", ".XD", ".XDIS", ".pA", ".ABC"]),
        pick(dice, &["", "", "", ".BC", ".DL"], &[".N", "BC", ".LAST"]),
    ]
    .concat();
    let mut tape = [begin, &name, &composed_side(dice, true)].concat();
    if begin == "<<CORR." || dice.below(10) == 0 {
        let named = dice.below(2) == 0;
        tape += "WAS.";
        if named {
            tape += if dice.below(10) == 0 { "ABC" } else { &name };
        }
        tape += &composed_side(dice, named);
    }
    tape += pick(dice, &[">>", ">>", ">>PREV.LAST44>>"], &["", ">", ">>>>"]);
    tape.into_bytes()
}

fn composed_side(dice: &mut Dice, named: bool) -> String {
    const VOLUMES: [&str; 21] = [
        "",
        "",
        "",
        "",
        "2s",
        "99s",
        "10,000s",
        "10,050$",
        "10,025$",
        "3$",
        "5$",
        "999$",
        "25SHRS",
        "100SHRS",
        "30SHRS",
        "50SHRS",
        "10,025SHRS",
        "10,030SHRS",
        "10,001SHRS",
        "9999SHRS",
        "1,000,000s",
    ];
    const ODD_VOLUMES: [&str; 6] = ["1s", "100s", "10,050s", "1000$", "9,999SHRS", "1,000,000,000s"];
    const CLOSING: [[&[&str]; 2]; 6] = [
        [&[",c"], &[",d"]],
        [&[",b"], &[",0"]],
        [&["t"], &["tt"]],
        [&["SELLER5", "SELLER999"], &["SELLER1000", "SELLER0"]],
        [&["RULE127"], &["RULE128"]],
        [&[">>PREV.LAST44>>", ">>PREV.LAST,5>>"], &[">>PREV.LAST0>>", ">>PREV.LAST44"]],
    ];
    let mut side = String::new();
    if named {
        side += pick(dice, &["", "", ".ND", ".OPD", ".SLD", ".SLD.LAST", ".ND.SLD"], &[".LAST", ".SLD.ND"]);
    }
    side += pick(dice, &VOLUMES, &ODD_VOLUMES);
    side += pick(
        dice,
        &["45", "45,5", "45,50", ",5", "100000,00000001"],
        &["45,000", ",0", "1234567", "0", "45,123456789"],
    );
    for [lawful, odd] in CLOSING {
        if dice.below(5) == 0 {
            side += pick(dice, lawful, odd);
        }
    }
    side
}
