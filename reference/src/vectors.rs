//! Answers requests in the vectors' format (tests/data/README.md).

use crate::calls::{self, CallContents, ProductionContents, Texts};
use crate::compiling::compile;
use crate::json::{self, Json};
use crate::merging::merge;
use crate::modifiers::ListedName;
use crate::names::Name;
use crate::numbers::{Number, Refusal};
use crate::resolving::{Maps, ROWS};
use crate::selection::Matcher;
use crate::table::{EventSpec, Production, Table};
use crate::writing::write;

/// A request that does not have the format.
#[derive(Debug, PartialEq, Eq)]
pub struct BadRequest;

/// The rules here are those of 01 with applied; R-3 changes no answer. A request says
/// which of 02's it counts on; one that counts on fewer is answered by these rules too.
const LEVEL: i64 = 4;

/// The answer line for a request line.
pub fn answer(request: &str) -> Result<String, BadRequest> {
    let request = json::parse(request).ok_or(BadRequest)?;
    let level = request.get("level").map_or(Some(0), Json::integer);
    if level.ok_or(BadRequest)? > LEVEL {
        return Err(BadRequest);
    }
    let answer = match text_of(&request, "op")? {
        "compile" => answer_compile(&request)?,
        "merge" => answer_merge(&request, table_answer)?,
        "write" => answer_write(&request)?,
        "writemerge" => answer_merge(&request, written_answer)?,
        "match" => answer_match(&request)?,
        _ => return Err(BadRequest),
    };
    Ok(answer.to_string())
}

fn answer_compile(request: &Json) -> Result<Json, BadRequest> {
    let text = bytes_of(request, "text")?;
    Ok(match compile(&text) {
        Ok(table) => table_answer(&table, &[&text, b""]),
        Err(refusal) => refused(refusal),
    })
}

fn answer_write(request: &Json) -> Result<Json, BadRequest> {
    let text = bytes_of(request, "text")?;
    Ok(match compile(&text) {
        Ok(table) => written_answer(&table, &[&text, b""]),
        Err(refusal) => refused(refusal),
    })
}

fn answer_merge(request: &Json, accepted: fn(&Table, &Texts) -> Json) -> Result<Json, BadRequest> {
    let texts = [bytes_of(request, "old")?, bytes_of(request, "new")?];
    let mut tables = Vec::new();
    for (which, text) in texts.iter().enumerate() {
        match compile(text) {
            Ok(table) => tables.push(table),
            Err(refusal) => return Ok(refused_with(refusal, &[("which", integer(which))])),
        }
    }
    Ok(match merge(&tables[0], &tables[1]) {
        Ok(table) => accepted(&table, &[&texts[0], &texts[1]]),
        Err(number) => numbered(number, &[]),
    })
}

fn answer_match(request: &Json) -> Result<Json, BadRequest> {
    let text = bytes_of(request, "text")?;
    let map: Result<Vec<u32>, BadRequest> = list_of(request, "map")?.iter().map(card32).collect();
    let map = map?;
    // "Where it is left out, 16 zero bytes."
    let modifiers = match request.get("modmap") {
        Some(_) => bytes_of(request, "modmap")?,
        None => vec![0; 2 * ROWS],
    };
    let maps = Maps {
        keyboard: &map,
        modifiers: &modifiers,
    };
    let time = card32(request.get("time").ok_or(BadRequest)?)?;
    let table = match compile(&text) {
        Ok(table) => table,
        Err(refusal) => return Ok(refused(refusal)),
    };
    let mut matcher = Matcher::new(&table, maps, time);
    let mut results = Vec::new();
    for call in list_of(request, "calls")? {
        let record = bytes_of(call, "rec")?;
        let order = call.get("order").and_then(Json::integer);
        let order = u8::try_from(order.ok_or(BadRequest)?).map_err(|_| BadRequest)?;
        let (number, selected) = matcher.call(&record, order);
        let selected = selected.map_or(Json::Integer(-1), integer);
        results.push(Json::List(vec![integer(number.index()), selected]));
    }
    Ok(numbered(
        Number::Accepted,
        &[("results", Json::List(results))],
    ))
}

fn table_answer(table: &Table, texts: &Texts) -> Json {
    let contents = calls::contents(table, texts).expect("the texts are the table's own");
    let productions = table.productions.iter().zip(&contents);
    let table = object(&[
        ("directive", integer(table.directive as usize)),
        ("merged", Json::Bool(table.merged)),
        (
            "productions",
            list(productions, |(production, contents)| {
                production_json(production, contents)
            }),
        ),
    ]);
    numbered(Number::Accepted, &[("table", table)])
}

fn production_json(production: &Production, contents: &ProductionContents) -> Json {
    let calls = production.calls.iter().zip(&contents.calls);
    object(&[
        ("events", list(&production.events, event_json)),
        (
            "calls",
            list(calls, |(call, contents)| call_json(call.text, contents)),
        ),
    ])
}

fn event_json(spec: &EventSpec) -> Json {
    object(&[
        ("code", Json::Integer(spec.code.into())),
        ("count", Json::Integer(spec.count.into())),
        ("set", Json::Integer(spec.test.set.into())),
        ("clear", Json::Integer(spec.test.clear.into())),
        ("colon", Json::Bool(spec.test.colon)),
        ("clause", Json::Bool(spec.test.clause)),
        (
            "detail",
            spec.detail
                .map_or(Json::Null, |detail| Json::Integer(detail.into())),
        ),
        ("bang", Json::Bool(spec.test.exclamation)),
        ("names", list(&spec.test.names, name_json)),
    ])
}

fn name_json(listed: &ListedName) -> Json {
    let name = match listed.name {
        Name::Keysym(keysym) => Json::Integer(keysym.into()),
        name => Json::Text(name.canonical()),
    };
    Json::List(vec![name, Json::Bool(!listed.negated)])
}

fn call_json(text: usize, contents: &CallContents) -> Json {
    object(&[
        ("name", hex(&contents.name)),
        ("params", list(&contents.parameters, |bytes| hex(bytes))),
        ("text", integer(text)),
    ])
}

fn written_answer(table: &Table, texts: &Texts) -> Json {
    let written = write(table, texts).expect("the texts are the table's own");
    numbered(Number::Accepted, &[("out", hex(&written))])
}

fn refused(refusal: Refusal) -> Json {
    refused_with(refusal, &[])
}

fn refused_with(refusal: Refusal, further: &[(&str, Json)]) -> Json {
    let place = [("place", integer(refusal.place))];
    numbered(refusal.number, &[&place, further].concat())
}

/// An answer begins with its number.
fn numbered(number: Number, further: &[(&str, Json)]) -> Json {
    object(&[&[("n", integer(number.index()))], further].concat())
}

fn object(entries: &[(&str, Json)]) -> Json {
    let entry = |(key, value): &(&str, Json)| (key.to_string(), value.clone());
    Json::Object(entries.iter().map(entry).collect())
}

fn list<T>(items: impl IntoIterator<Item = T>, json: impl Fn(T) -> Json) -> Json {
    Json::List(items.into_iter().map(json).collect())
}

fn integer(value: usize) -> Json {
    Json::Integer(i64::try_from(value).expect("places and numbers are small"))
}

fn hex(bytes: &[u8]) -> Json {
    Json::Text(bytes.iter().map(|byte| format!("{byte:02x}")).collect())
}

fn text_of<'j>(object: &'j Json, key: &str) -> Result<&'j str, BadRequest> {
    object.get(key).and_then(Json::text).ok_or(BadRequest)
}

fn list_of<'j>(object: &'j Json, key: &str) -> Result<&'j [Json], BadRequest> {
    object.get(key).and_then(Json::list).ok_or(BadRequest)
}

fn bytes_of(object: &Json, key: &str) -> Result<Vec<u8>, BadRequest> {
    let digits = text_of(object, key)?.as_bytes();
    if digits.len() % 2 != 0 {
        return Err(BadRequest);
    }
    let digit = |byte: u8| char::from(byte).to_digit(16).ok_or(BadRequest);
    digits
        .chunks(2)
        .map(|pair| Ok((digit(pair[0])? * 16 + digit(pair[1])?) as u8))
        .collect()
}

fn card32(value: &Json) -> Result<u32, BadRequest> {
    let value = value.integer().ok_or(BadRequest)?;
    u32::try_from(value).map_err(|_| BadRequest)
}
