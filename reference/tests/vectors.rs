//! The library agrees with every line of the vectors, but for those that turn.

use glykorant_reference::json::{self, Json};
use glykorant_reference::keysyms::{self, first_name};
use glykorant_reference::resolving::ROWS;
use glykorant_reference::{compile, vectors, Maps, Matcher};
use std::fs;
use std::path::Path;

fn lines(name: &str) -> Vec<String> {
    let path = Path::new(env!("CARGO_MANIFEST_DIR"))
        .join("tests/data")
        .join(name);
    let text = fs::read_to_string(&path).unwrap_or_else(|error| panic!("{name}: {error}"));
    text.lines().map(str::to_string).collect()
}

/// The lines of a file, from 1 on, whose answers are others since.
#[derive(Default)]
struct Turned {
    /// matches on which a motion replaces another.
    by_motions: &'static [usize],
    /// texts with a name that was refused with 5.
    by_names: &'static [(usize, &'static str)],
    /// how many written texts now have a name where they had a key detail in hexadecimal.
    rewritten: usize,
}

/// So many requests of a file, each with its answer, in the form in which the file has answers.
fn check(prefix: &str, count: usize, form: fn(String) -> String, turned: Turned) {
    let requests = lines(&format!("{prefix}requests.jsonl"));
    let answers = lines(&format!("{prefix}answers.jsonl"));
    assert_eq!((requests.len(), answers.len()), (count, count));
    let mut rewritten = 0;
    for (at, (request, answer)) in requests.iter().zip(&answers).enumerate() {
        let line = at + 1;
        let found = form(vectors::answer(request).expect("a request"));
        let mut by_names = turned.by_names.iter();
        if turned.by_motions.contains(&line) {
            check_turned_by_motions(line, request, [answer, &found]);
        } else if let Some((_, name)) = by_names.find(|(named, _)| *named == line) {
            assert!(level(request) < 4 && answer.starts_with("{\"n\":5,"));
            assert_eq!(found, form(answer_without(name, request)), "line {line}");
        } else {
            let expected = match level(request) < 4 {
                true => with_written_names(answer),
                false => answer.clone(),
            };
            assert_eq!(found, expected, "line {line}");
            rewritten += usize::from(expected != *answer);
        }
    }
    assert_eq!(rewritten, turned.rewritten);
}

fn level(request: &str) -> i64 {
    let request = json::parse(request).unwrap();
    request.get("level").and_then(Json::integer).unwrap_or(0)
}

/// The answer to a request whose text has hexadecimal in the place of this name.
fn answer_without(name: &str, request: &str) -> String {
    let keysym = keysyms::named(name.as_bytes()).unwrap();
    let number = format!("{keysym:#x}");
    let other = request.replace(&hex(name.as_bytes()), &hex(number.as_bytes()));
    assert_ne!(other, request, "{name}");
    vectors::answer(&other).unwrap()
}

fn hex(bytes: &[u8]) -> String {
    bytes.iter().map(|byte| format!("{byte:02x}")).collect()
}

/// A written text of an answer, with the names that R-4 has written. Other answers stay.
fn with_written_names(answer: &str) -> String {
    let before = json::parse(answer).unwrap();
    let Some(out) = before.get("out").and_then(Json::text) else {
        return answer.to_string();
    };
    let named: Vec<u8> = bytes(out)
        .split_inclusive(|&byte| byte == b'\n')
        .flat_map(with_names)
        .collect();
    answer.replace(out, &hex(&named))
}

/// A canonical line. Its events have a comma or colon after their `>` only at their end, and no
/// other detail than a key's begins with `0x`.
fn with_names(line: &[u8]) -> Vec<u8> {
    let mut named = Vec::new();
    let mut rest = line;
    let ends = |part: &[u8], signs: &[u8]| part.iter().position(|byte| signs.contains(byte));
    while let Some(type_end) = ends(rest, b">") {
        let (before, after) = rest.split_at(type_end + 1);
        let (detail, further) = after.split_at(ends(after, b",:").unwrap());
        let (count, detail) = detail.split_at(ends(detail, b")").map_or(0, |at| at + 1));
        named.extend([before, count, &with_name(detail)].concat());
        rest = further;
        if further[0] == b':' {
            break;
        }
    }
    named.extend(rest);
    named
}

fn with_name(detail: &[u8]) -> Vec<u8> {
    let detail = std::str::from_utf8(detail).unwrap();
    let digits = detail.strip_prefix("0x");
    let keysym = digits.and_then(|digits| u32::from_str_radix(digits, 16).ok());
    let name = keysym.and_then(first_name).unwrap_or(detail);
    name.as_bytes().to_vec()
}

/// A line that R-2 turns: a match of a level before 2. The two answers have the same numbers, and
/// the same selections before the first motion that replaces another, and differ after it.
fn check_turned_by_motions(line: usize, request: &str, answers: [&str; 2]) {
    assert!(level(request) < 2, "line {line}");
    let request = json::parse(request).unwrap();
    let replaced = first_replaced(&request).unwrap_or_else(|| panic!("no run: line {line}"));
    let [before, now] = answers.map(results);
    assert_eq!(before.len(), now.len(), "line {line}");
    for (at, (before, now)) in before.iter().zip(&now).enumerate() {
        assert_eq!(before[0], now[0], "line {line}, call {at}");
        assert!(at >= replaced || before == now, "line {line}, call {at}");
    }
    assert_ne!(before, now, "line {line}");
}

/// The number and the selection of each call.
fn results(answer: &str) -> Vec<[i64; 2]> {
    let answer = json::parse(answer).unwrap();
    let results = answer.get("results").and_then(Json::list).unwrap();
    let pair = |result: &Json| {
        let pair = result.list().unwrap();
        [0, 1].map(|at| pair[at].integer().unwrap())
    };
    results.iter().map(pair).collect()
}

/// The first call of a match at which a motion replaces another.
fn first_replaced(request: &Json) -> Option<usize> {
    let field = |object: &Json, key: &str| Some(bytes(object.get(key)?.text()?));
    let map = request.get("map").and_then(Json::list)?;
    let map: Vec<u32> = map
        .iter()
        .map(|number| number.integer().unwrap() as u32)
        .collect();
    let modifiers = field(request, "modmap").unwrap_or(vec![0; 2 * ROWS]);
    let maps = Maps {
        keyboard: &map,
        modifiers: &modifiers,
    };
    let table = compile(&field(request, "text")?).ok()?;
    let time = request.get("time").and_then(Json::integer)? as u32;
    let mut matcher = Matcher::new(&table, maps, time);
    let mut calls = request.get("calls").and_then(Json::list)?.iter();
    calls.position(|call| {
        let order = call.get("order").and_then(Json::integer).unwrap() as u8;
        matcher.call(&field(call, "rec").unwrap(), order);
        matcher.step().is_some_and(|step| step.replaced)
    })
}

fn bytes(digits: &str) -> Vec<u8> {
    let pair = |pair| u8::from_str_radix(std::str::from_utf8(pair).unwrap(), 16).unwrap();
    digits.as_bytes().chunks(2).map(pair).collect()
}

/// The vectors of 01 have no names.
fn of_01(answer: String) -> String {
    answer.replace(",\"bang\":false,\"names\":[]", "")
}

#[test]
fn generated_requests_of_01() {
    let turned = Turned {
        by_motions: MOTIONS_OF_01,
        rewritten: 244,
        ..Turned::default()
    };
    check("", 2463, of_01, turned);
}

const MOTIONS_OF_01: &[usize] = &[
    36, 52, 62, 90, 99, 110, 172, 221, 297, 302, 319, 361, 368, 408, 433, 451, 458, 460, 485, 491,
    495, 527, 586, 620, 654, 711, 714, 724, 735, 744, 761, 767, 808, 814, 917, 920, 925, 951, 983,
    992, 1052, 1107, 1208, 1258, 1265, 1284, 1309, 1441, 1504, 1510, 1584, 1592, 1647, 1650, 1724,
    1733, 1750, 1756, 1831, 1947, 2006, 2072, 2188, 2201, 2210, 2214, 2218, 2242, 2368, 2371, 2382,
    2401, 2404, 2422,
];

#[test]
fn open_points_of_01() {
    let turned = Turned {
        by_motions: &[100],
        rewritten: 4,
        ..Turned::default()
    };
    check("open-points.", 119, of_01, turned);
}

#[test]
fn level_1_of_02() {
    let turned = Turned {
        by_motions: &[
            16, 23, 27, 29, 33, 71, 87, 89, 108, 137, 150, 196, 200, 239, 242, 251, 257,
        ],
        by_names: &[
            (34, "Oslash"),
            (59, "Oslash"),
            (93, "oslash"),
            (146, "eacute"),
        ],
        rewritten: 31,
    };
    check("02/level-01.", 260, |answer| answer, turned);
}

#[test]
fn level_2_of_02() {
    let turned = Turned {
        rewritten: 8,
        ..Turned::default()
    };
    check("02/level-02.", 220, |answer| answer, turned);
}

#[test]
fn level_4_of_02() {
    check("02/level-04.", 210, |answer| answer, Turned::default());
}

/// The three that are turned by motions or names are examples of how the level before answers what
/// changes.
#[test]
fn open_points_of_02() {
    let turned = Turned {
        by_motions: &[98, 111],
        by_names: &[(59, "eacute")],
        rewritten: 10,
    };
    check("02/open-points.", 134, |answer| answer, turned);
}

/// A request that counts on a later one of 02 is not answered.
#[test]
fn later_levels() {
    let request = |level: u8| format!("{{\"op\":\"compile\",\"text\":\"\",\"level\":{level}}}");
    assert!(vectors::answer(&request(4)).is_ok());
    assert!(vectors::answer(&request(5)).is_err());
}
