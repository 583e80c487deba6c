//! Texts with marks such as %total%, in the place of which a value is put.

use std::collections::BTreeMap;

pub type Values = BTreeMap<&'static str, String>;

/// A mark that has no value is a mistake of this program.
pub fn filled(template: &str, values: &Values) -> String {
    let mut text = String::new();
    for (i, part) in template.split('%').enumerate() {
        if i % 2 == 0 {
            text.push_str(part);
        } else {
            let value = values.get(part);
            text.push_str(value.unwrap_or_else(|| panic!("no value for the mark %{part}%")));
        }
    }
    text
}

#[cfg(test)]
mod tests {
    use super::*;

    #[test]
    fn marks_are_filled_once() {
        let values = Values::from([("a", "%b%".to_string()), ("b", "2".to_string())]);
        assert_eq!(filled("x = %a%, y = %b%\n", &values), "x = %b%, y = 2\n");
    }

    #[test]
    #[should_panic(expected = "no value for the mark %c%")]
    fn an_unknown_mark() {
        filled("%c%", &Values::new());
    }
}
