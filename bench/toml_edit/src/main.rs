//! `check`, `get PATH` and `apply SCRIPT` by toml_edit: a document comes in on standard input, the answer goes out on
//! standard output. Words and scripts are keep-toml's. What can't be done ends the process: it is for measuring alone.
use std::io::Write;
use std::{env, io, mem};
use toml_edit::{Array, ArrayOfTables, DocumentMut, ImDocument, Item, Key, Table, TableLike, Value};

enum Step {
    Key(String),
    Index(usize),
}

/// What an edit puts something into, or takes something out of.
enum Holder<'a> {
    Table(&'a mut dyn TableLike),
    Array(&'a mut Array),
    Elements(&'a mut ArrayOfTables),
}

/// The length of the key at the start of a path's text.
fn key_len(text: &str) -> usize {
    let quoted_len = |mark: char, escapes: bool| {
        let mut escaped = false;
        let end = text[1..].find(|c| {
            let ends = c == mark && !escaped;
            escaped = escapes && c == '\\' && !escaped;
            ends
        });
        end.expect("a key's end") + 2
    };
    match text.as_bytes()[0] {
        b'"' => quoted_len('"', true),
        b'\'' => quoted_len('\'', false),
        _ => text.find(['.', '[']).unwrap_or(text.len()),
    }
}

fn steps_of(text: &str) -> Vec<Step> {
    let mut steps = Vec::new();
    let mut left = text;
    while !left.is_empty() {
        if let Some(rest) = left.strip_prefix('[') {
            let (number, rest) = rest.split_once(']').expect("an index");
            steps.push(Step::Index(number.parse().expect("a number")));
            left = rest;
        } else {
            let rest = left.strip_prefix('.').unwrap_or(left);
            let (key, rest) = rest.split_at(key_len(rest));
            steps.push(Step::Key(key.parse::<Key>().expect("a key").get().to_owned()));
            left = rest;
        }
    }
    steps
}

fn in_value<'a>(value: &'a mut Value, steps: &[Step]) -> Holder<'a> {
    match (steps.split_first(), value) {
        (None, Value::InlineTable(table)) => Holder::Table(table),
        (None, Value::Array(array)) => Holder::Array(array),
        (Some((Step::Key(key), rest)), Value::InlineTable(table)) => {
            in_value(table.get_mut(key).expect("a pair"), rest)
        }
        (Some((Step::Index(number), rest)), Value::Array(array)) => {
            in_value(array.get_mut(*number).expect("an item"), rest)
        }
        _ => panic!("no holder"),
    }
}

/// What these steps lead to from a table. Tables that are not there are made, as an insert does.
fn in_table<'a>(table: &'a mut Table, steps: &[Step]) -> Holder<'a> {
    let Some((Step::Key(key), rest)) = steps.split_first() else {
        return Holder::Table(table);
    };
    let made = || {
        let mut table = Table::new();
        table.set_implicit(true);
        Item::Table(table)
    };
    match table.entry(key).or_insert_with(made) {
        Item::Table(table) => in_table(table, rest),
        Item::Value(value) => in_value(value, rest),
        Item::ArrayOfTables(elements) => match rest.split_first() {
            Some((Step::Index(number), rest)) => in_table(elements.get_mut(*number).expect("an element"), rest),
            _ => Holder::Elements(elements),
        },
        Item::None => panic!("no item"),
    }
}

/// A value with what is around an old one.
fn in_place_of(old: &Value, text: &str) -> Value {
    let mut value: Value = text.parse().expect("a value");
    *value.decor_mut() = old.decor().clone();
    value
}

fn append(holder: Holder<'_>, key: &str, op: &str) {
    let Holder::Table(table) = holder else {
        panic!("no table");
    };
    if op == "table" {
        table.insert(key, Item::Table(Table::new()));
        return;
    }
    let array = table.entry(key).or_insert(Item::ArrayOfTables(ArrayOfTables::new()));
    array
        .as_array_of_tables_mut()
        .expect("an array of tables")
        .push(Table::new());
}

fn edit(document: &mut DocumentMut, op: &str, path: &str, word: &str) {
    let mut steps = steps_of(path);
    let last = steps.pop().expect("a step");
    let holder = in_table(document.as_table_mut(), &steps);
    match (op, holder, last) {
        ("table" | "element", holder, Step::Key(key)) => append(holder, &key, op),
        ("set", Holder::Table(table), Step::Key(key)) => {
            let old = table.get_mut(&key).expect("a value");
            *old = Item::Value(in_place_of(old.as_value().expect("a value"), word));
        }
        ("set", Holder::Array(array), Step::Index(number)) => {
            let value = in_place_of(array.get(number).expect("an item"), word);
            array.replace_formatted(number, value);
        }
        ("insert", Holder::Table(table), Step::Key(key)) => {
            table.insert(&key, Item::Value(word.parse().expect("a value")));
        }
        ("insert", Holder::Array(array), Step::Index(number)) => {
            array.insert(number, word.parse::<Value>().expect("a value"))
        }
        ("remove", Holder::Table(table), Step::Key(key)) => mem::drop(table.remove(&key).expect("a key")),
        ("remove", Holder::Array(array), Step::Index(number)) => mem::drop(array.remove(number)),
        ("remove", Holder::Elements(elements), Step::Index(number)) => mem::drop(elements.remove(number)),
        // There is no rename: the key goes to the end.
        ("rename", Holder::Table(table), Step::Key(key)) => {
            let item = table.remove(&key).expect("a key");
            table.insert(word, item);
        }
        _ => panic!("{op} {path}"),
    }
}

fn applied(text: &str, script: &str) -> DocumentMut {
    let script = ImDocument::parse(script).expect("a script");
    let mut document: DocumentMut = text.parse().expect("a document");
    let edits = script["edit"].as_array_of_tables().expect("edits");
    for element in edits {
        let word = |key: &str| element.get(key).and_then(Item::as_str);
        let third = word("value").or(word("key")).unwrap_or("");
        edit(
            &mut document,
            word("op").expect("an op"),
            word("path").expect("a path"),
            third,
        );
    }
    mem::forget(script);
    document
}

fn found<'a>(document: &'a Item, steps: &[Step]) -> &'a Item {
    steps.iter().fold(document, |item, step| match step {
        Step::Key(key) => &item[key.as_str()],
        Step::Index(number) => &item[*number],
    })
}

fn main() -> io::Result<()> {
    let words: Vec<String> = env::args().skip(1).collect();
    let text = io::read_to_string(io::stdin().lock())?;
    let mut output = io::stdout().lock();
    match words.iter().map(String::as_str).collect::<Vec<_>>()[..] {
        ["check"] => {
            let document = ImDocument::parse(text.as_str()).expect("a document");
            writeln!(output, "ok {}", document.as_table().len())?;
            mem::forget(document);
        }
        ["get", path] => {
            let document = ImDocument::parse(text.as_str()).expect("a document");
            writeln!(output, "{}", found(document.as_item(), &steps_of(path)))?;
            mem::forget(document);
        }
        ["apply", script] => {
            let document = applied(&text, script);
            output.write_all(document.to_string().as_bytes())?;
            mem::forget(document);
        }
        _ => panic!("check, get PATH or apply SCRIPT"),
    }
    Ok(())
}
