//! The reader on single texts: the readings' examples and the rules that cut a print short.

use peer::program;
use peer::reader::read;
use peer::refusals::Refusal;

/// The length of the print at the start and its undivided name; 0 if there is none.
fn found(tape: &str) -> (usize, &str) {
    match read(tape.as_bytes(), 0) {
        Ok(print) => (print.len, std::str::from_utf8(print.name).unwrap()),
        Err(refusal) => {
            assert_eq!(refusal, Refusal::NoPrint);
            (0, "")
        }
    }
}

/// `|` stands where the print ends; nothing stands before it if there is none.
fn check(name: &str, marked: &[&str]) {
    for text in marked {
        let len = text.find('|').expect("the end is marked");
        let name = if len == 0 { "" } else { name };
        assert_eq!(found(&text.replace('|', "")), (len, name), "{text}");
    }
}

#[test]
fn readings() {
    check("ABC", &["ABC45|SELLER0", "ABC100SHRS45|RULE127", "ABC10|,000", "ABC1|,000,000,000s5"]);
    check("ABC.A.N", &["|<<CXL.ABC.N45>>", "<<CXL.ABC.A.N45>>|"]);
    check("ABC.N", &["ABC.N45|", "ABC.N.ND.SLD.LAST45|"]);
}

#[test]
fn prices() {
    check("ABC", &["ABC123456|7", "ABC45|,000", "ABC45,12345678|9", "ABC45|,000000001", "ABC,05|", "ABC45,5|,5"]);
    check("", &["|ABC,00", "|ABC045", "|ABC0,5", "|ABC", "|45", "|"]);
}

#[test]
fn volumes() {
    check(
        "ABC",
        &["ABC1|s45", "ABC2s45|", "ABC99s45|", "ABC100|s45", "ABC10,000s45|", "ABC10,050|s45", "ABC10,050$45|"],
    );
    check("ABC", &["ABC999$45|", "ABC1000|$45", "ABC9999SHRS4|", "ABC12345|SHRS4", "ABC9,999|SHRS4", "ABC200SHRS45|"]);
    check("ABC", &["ABC2|s", "ABC2|s,0", "ABC2|SHRS", "ABC999,999,999SHRS1|", "ABC1,000,000s1|", "ABC10|,000,00s1"]);
    check("ABC.DL", &["ABC.DL10|$45", "ABC.DL10SHRS45|"]);
    check("ABC.BC", &["ABC.BC100|SHRS45", "ABC.BC101SHRS45|", "ABC.BC10,001SHRS45|"]);
}

#[test]
fn conditions() {
    check("ABC", &["ABC.ND.SLD45,bt|RULE127", "ABC.SLD45,btRULE127|", "ABC.ND45|,c", "ABC45,c|SELLER5", "ABC45,b|,c"]);
    check(
        "ABC",
        &["ABC45SELLER123|4", "ABC45SELLER12RULE127|RULE127", "ABC45>>PREV.LAST,5>>|", "ABC45|>>PREV.LAST0>>"],
    );
    check("ABC", &["ABC10$45|>>PREV.LAST44>>", "ABC200SHRS45>>PREV.LAST44>>|>>", "ABC45RULE127|>>PREV.LAST44>>"]);
    check("ABC.DL", &["ABC.DL45|RULE127", "ABC.DL.OPD45>>PREV.LAST44>>|"]);
}

#[test]
fn names() {
    check(
        "",
        &["|SHRS45", "|RULE127", "|SELLER.A5", "|ABCDEFG45", "|.A45", "|ABC.ND.N45", "|ABC.SLD.ND45", "|ABC.LAST45"],
    );
    check("", &["|ABC.pA45", "|ABCpCLw45", "|ABC.XD.N45", "|ABC.BC.DL45", "|ABC&45", "|abc45"]);
    check("ABCpCV.CL.XDIS.BC", &["ABCpCV.CL.XDIS.BC.ND.SLD.LAST45|"]);
    check("ABCDEFpCV.CL.XDIS.DL", &["ABCDEFpCV.CL.XDIS.DL.ND.SLD.LAST45|"]);
    check("ND", &["ND.ND45|"]);
    check("RULEA", &["RULEA127|"]);
}

#[test]
fn corrections() {
    check("ABC", &["<<CORR.ABC4s42WAS.5s43>>|", "<<CORR.ABC45WAS.ABC45,b>>|", "<<CORR.ABC45,bWAS.45t>>|"]);
    check("ABC", &["<<CORR.ABC45>>PREV.LAST44>>WAS.45>>|", "<<CORR.ABC45WAS.45>>PREV.LAST44>>|>>"]);
    check(
        "ABC",
        &[
            "<<CORR.ABC45RULE127WAS.45>>|PREV.LAST44>>",
            "<<CXL.ABC10$45>>|PREV.LAST44>>",
            "<<CORR.ABC25SHRS45WAS.3$45>>|PREV.LAST1>>",
        ],
    );
    check("", &["|<<CORR.ABC45WAS.ABC45>>", "|<<CORR.ABC45WAS.45,b>>", "|<<CORR.ABC45WAS.ABD45,b>>"]);
    check("", &["|<<CORR.ABC10$45WAS.5s45>>", "|<<CORR.ABC45WAS.10$45>>", "|<<CORR.ABC45,b,cWAS.45>>"]);
    check("", &["|<<CORR.ABC100SHRS45WAS.3$45>>", "|<<CORR.ABC.XI45WAS.45>>", "|<<CXL.ABC45>"]);
    check("ABC", &["<<ERR.ABC45SELLER1>>|", "<<ERR.ABC.OPD45,c,bt>>|"]);
}

#[test]
fn announcements() {
    check("", &["<<<TICKER.MODE.NORMAL>>|", "<<<NOW.IN.DIGITS.&.VOLUME.DELETED.MODE>>|>"]);
    check("", &["<<<NOW.IN.REPEAT.PRICES.OMITTED.MODE>>|", "|<<<TICKER.MODE.NORMAL>"]);
    for (distance, printed) in
        [(",05", true), ("5,00", true), ("1,00", true), (",00", false), ("5,05", false), (",07", false)]
    {
        let text = format!("<<<MIN.PRICE.CHGS.OMITTED.NOW{distance}>>");
        assert_eq!(found(&text), (if printed { text.len() } else { 0 }, ""), "{text}");
    }
    for (level, printed) in [("5000", true), ("4999", false), ("9,999", false), ("100,000", true), ("100,001", false)] {
        let text = format!("<<<VOLUME.DELETE.LEVEL.IS.NOW{level}SHRS>>");
        assert_eq!(found(&text), (if printed { text.len() } else { 0 }, ""), "{text}");
    }
}

#[test]
fn places() {
    let tape = b"ABC45,69ABC2s45,81";
    assert_eq!(read(tape, 8).map(|print| (print.len, print.name)), Ok((10, &b"ABC"[..])));
    for place in [18, 19, usize::MAX] {
        assert_eq!(read(tape, place), Err(Refusal::NoPrint));
    }
}

#[test]
fn program() {
    for (tape, facts, expected) in [
        (&b"ABC45,69ABC2s45,81"[..], false, "         0         8\n         8        10\n"),
        (b"ABC45,69\nABC2s45,81", false, "         0         8\n         8         0\n"),
        (b"", false, ""),
        (
            b"ABC45,50,cq",
            true,
            "         0        10 name=ABC T price=45.5 cond=K days=- prev=- vol=100\n        10         0 name= -\n",
        ),
    ] {
        let mut output = Vec::new();
        program::read(tape, &mut output, facts).unwrap();
        assert_eq!(String::from_utf8(output).unwrap(), expected);
    }
}
