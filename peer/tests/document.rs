//! What document 01 shows: the sample day, the marked prints, the refusals' inputs, the room.

use peer::day::Day;
use peer::program;
use peer::random::drawn;
use peer::refusals::Refusal;

/// A T, X or E line, or the original of a C line.
fn trade(kind: char, volume: u32, n: u64, d: u8, letters: &str, previous: &str) -> String {
    format!("{kind}   1N{}", side(volume, n, d, letters, previous))
}

fn side(volume: u32, n: u64, d: u8, letters: &str, previous: &str) -> String {
    format!("{volume:>9}{n:>14}{d}{letters:<4}   {previous:>15}")
}

fn entered(entry: &str) -> Day {
    let mut day = Day::new();
    for line in ["D20030321", entry] {
        assert_eq!(day.take_line(&drawn(line), &mut []), Ok(0));
    }
    day
}

fn print(day: &mut Day, line: &str) -> Result<String, Refusal> {
    let mut tape = [b'#'; 300];
    let len = day.take_line(&drawn(line), &mut tape)?;
    assert!(tape[len..].iter().all(|&byte| byte == b'#'), "the bytes after the print keep their values");
    Ok(String::from_utf8(tape[..len].to_vec()).unwrap())
}

fn abc(unit: u8, network: char) -> String {
    format!("S   1ABC                {unit:>3}{network}N0")
}

#[test]
fn sample_day() {
    let lines = [
        "D20030321",
        "S   1ABC                100AN0",
        "T   1N     1000          45692",
        "MD",
        "T   1N     4900          45552",
        "T   1N     5000          45552",
        "T   1N     4900          40692",
    ];
    let file = lines.map(|line| String::from_utf8(drawn(line)).unwrap()).join("\n");
    let (mut tape, mut refused) = (Vec::new(), Vec::new());
    program::day(file.as_bytes(), &mut tape, &mut refused).unwrap();
    let expected = "ABC10s45,69<<<NOW.IN.DIGITS.&.VOLUME.DELETED.MODE>>ABC5,55ABC50s5,55ABC40,69";
    assert_eq!(String::from_utf8(tape).unwrap(), expected);
    assert!(refused.is_empty());
}

#[test]
fn marked_prints() {
    let cases = [
        (100, 'A', 100, 4569, 2, "", "", "ABC45,69"),
        (100, 'A', 200, 4569, 2, "", "", "ABC2s45,69"),
        (100, 'A', 9_900, 4569, 2, "", "", "ABC99s45,69"),
        (100, 'A', 10_000, 4569, 2, "", "", "ABC10,000s45,69"),
        (100, 'A', 185, 4569, 2, "", "", "ABC185SHRS45,69"),
        (10, 'A', 990, 4569, 2, "", "", "ABC99$45,69"),
        (25, 'A', 25, 4569, 2, "", "", "ABC25SHRS45,69"),
        (100, 'A', 5_500, 2, 1, "", "", "ABC55s,2"),
        (100, 'A', 50_000, 54, 0, "SJ", "", "ABC.SLD50,000s54RULE127"),
        (100, 'B', 1_000, 45, 0, "G", "44252", "ABC10s45>>PREV.LAST44,25>>"),
    ];
    for (unit, network, volume, n, d, letters, previous, expected) in cases {
        let line = trade('T', volume, n, d, letters, previous);
        assert_eq!(print(&mut entered(&abc(unit, network)), &line).as_deref(), Ok(expected));
    }
    let line = trade('C', 400, 42, 0, "", "") + &side(500, 43, 0, "", "");
    assert_eq!(print(&mut entered(&abc(100, 'A')), &line).as_deref(), Ok("<<CORR.ABC4s42WAS.5s43>>"));
}

#[test]
fn mpv_distance() {
    let mut day = entered(&abc(100, 'A'));
    for (line, expected) in [
        (trade('T', 100, 4555, 2, "", ""), "ABC45,55"),
        ("P  6".into(), ""),
        ("MP".into(), "<<<MIN.PRICE.CHGS.OMITTED.NOW,30>>"),
        (trade('T', 100, 4585, 2, "", ""), ""),
        (trade('T', 100, 4586, 2, "", ""), "ABC5,86"),
    ] {
        assert_eq!(print(&mut day, &line).as_deref(), Ok(expected));
    }
}

#[test]
fn refusals() {
    let mut day = Day::new();
    assert_eq!(day.take_line(b"", &mut []), Err(Refusal::Bytes));
    assert_eq!(print(&mut day, "MN"), Err(Refusal::NoDay));
    let mut day = entered(&abc(100, 'A'));
    let plain = trade('T', 100, 4569, 2, "", "");
    for (line, refusal) in [
        ("Q".into(), Refusal::Kind),
        ("V 05000".into(), Refusal::Form),
        ("V  4999".into(), Refusal::Value),
        (plain.replacen("   1", "   9", 1), Refusal::NotEntered),
        (abc(100, 'A'), Refusal::InUse),
        ("S   2RULE               100AN0".into(), Refusal::Unlisted),
        (abc(100, 'B').replacen('1', "2", 1), Refusal::SameName),
        (trade('T', 100, 4569, 2, "SL", ""), Refusal::Letters),
        (trade('T', 100, 4569, 2, "R", ""), Refusal::Companion),
        ("D20030321".into(), Refusal::Date),
    ] {
        assert_eq!(print(&mut day, &line), Err(refusal), "{line}");
    }
    // 13 leaves tape and day as they were: the trade after it is still the first.
    let mut tape = [b'#'; 7];
    assert_eq!(print(&mut day, "MP").as_deref(), Ok("<<<MIN.PRICE.CHGS.OMITTED.NOW,05>>"));
    assert_eq!(day.take_line(&drawn(&plain), &mut tape), Err(Refusal::Room));
    assert_eq!(tape, [b'#'; 7]);
    assert_eq!(print(&mut day, &plain).as_deref(), Ok("ABC45,69"));
    assert_eq!(print(&mut day, &plain).as_deref(), Ok(""));
}

/// Lines of any length, on every edge of a block, and an end with and without line feed.
#[test]
fn cutting() {
    let good = [drawn("D20030321"), b"\n".to_vec()].concat();
    for (lengths, feed) in [(vec![0, 99, 101, 100], true), (vec![262_144, 262_143, 1_000_000, 100, 7], false)] {
        let mut file = good.clone();
        for length in &lengths {
            file.extend(vec![b'Q'; *length]);
            file.push(b'\n');
        }
        if !feed {
            file.pop();
        }
        let (mut tape, mut refused) = (Vec::new(), Vec::new());
        program::day(file.as_slice(), &mut tape, &mut refused).unwrap();
        let numbers = lengths.iter().map(|&length| if length == 100 { 2 } else { 1 });
        let expected: String = numbers.enumerate().map(|(i, number)| format!("{:10}{number:3}\n", i + 2)).collect();
        assert_eq!(String::from_utf8(refused).unwrap(), expected);
        assert!(tape.is_empty());
    }
}
