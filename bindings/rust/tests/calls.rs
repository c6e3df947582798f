use keep_toml::*;

#[test]
fn edits() {
    assert_eq!(set("a = 1 # x\r\n", "a", "2").unwrap(), "a = 2 # x\r\n");
    assert_eq!(text("s = \"\\u00e9\"", "s").unwrap(), "é");
    assert_eq!(get("a = [1,\n 2]", "a").unwrap(), "[1,\n 2]");
    assert_eq!(rename("a = 1\n", "a", "b c").unwrap(), "\"b c\" = 1\n");
    assert_eq!(remove("a = 1\nb = 2\n", "a").unwrap(), "b = 2\n");
    assert_eq!(table("", "a.b").unwrap(), "[a.b]\n");
    assert_eq!(element("", "a").unwrap(), "[[a]]\n");
    let script = "[[edit]]\nop = 'set'\npath = 'a'\nvalue = '''{\n}'''\n";
    assert!(matches!(apply("a = 1", script), Err(Fault::Unreadable(_))));
    assert_eq!(Call::Apply(script).run(b"a = 1", Profile::Wide).unwrap(), "a = {\n}");
    assert_eq!(get(&set("a = 1", "a", &quoted("\0\x7f\"\\é\n")).unwrap(), "a").unwrap(), "\"\\u0000\\u007F\\\"\\\\é\\n\"");
    assert_eq!(text(&set("a = 1", "a", &quoted("\0\x7f\"\\é\n")).unwrap(), "a").unwrap(), "\0\x7f\"\\é\n");
}

#[test]
fn values_of_wide() {
    for value in ["{ x = 1, }", "\"\\e\"", "12:30"] {
        assert_eq!(Call::Set("a", value).run(b"a = 1", Profile::Wide).unwrap(), format!("a = {value}"));
        assert_eq!(Call::Insert("a", value).run(b"", Profile::Wide).unwrap(), format!("a = {value}\n"));
        assert!(matches!(set("a = 1", "a", value), Err(Fault::Unreadable(_))));
    }
}

#[test]
fn faults() {
    let fault = get("a = 1", "b").unwrap_err();
    assert!(matches!(fault, Fault::Refused(_)));
    assert_eq!((fault.at(), fault.reason(), fault.edit()), (None, Some("NotFound"), Some(0)));
    let fault = table("a = 1", "a").unwrap_err();
    assert_eq!((fault.reason(), fault.to_string()), (Some("Conflict"), "edit 0: Conflict DefinedTwice".to_string()));
    let fault = apply("", "[[edit]]\nop = 'set'\npath = 'a'\nvalue = ']'\n").unwrap_err();
    assert_eq!((fault.at(), fault.reason(), fault.edit()), (None, Some("Value"), Some(0)));
    let fault = check("a = 1\na = 2").unwrap_err();
    assert_eq!((fault.at(), fault.reason(), fault.edit()), (Some(6), Some("DuplicateKey"), None));
    let fault = get("a = 1", "a..b").unwrap_err();
    assert_eq!((fault.at(), fault.reason(), fault.to_string()), (Some(1), None, "path at 1".to_string()));
    let fault = set("a = 1", "a", "[1").unwrap_err();
    assert_eq!((fault.at(), fault.edit()), (Some(2), None));
    let fault = Call::Check.run(b"a\xff", Profile::Strict).unwrap_err();
    assert_eq!((fault.at(), fault.reason()), (Some(1), Some("Utf8")));
    let long = format!("a = '{}'", "x".repeat(5000));
    assert_eq!(get(&long, "a").unwrap().len(), 5002);
}

#[test]
fn threads() {
    std::thread::scope(|scope| {
        for n in 0..4 {
            scope.spawn(move || {
                for i in 0..500 {
                    let value = (n * 1000 + i).to_string();
                    assert_eq!(set("a = 1 # x\n", "a", &value).unwrap(), format!("a = {value} # x\n"));
                }
            });
        }
    });
}

fn unescaped(field: &str) -> Vec<u8> {
    let (bytes, mut out, mut at) = (field.as_bytes(), Vec::new(), 0);
    while at < bytes.len() {
        if bytes[at..].starts_with(b"\\x") {
            out.push(u8::from_str_radix(&field[at + 2..at + 4], 16).unwrap());
            at += 4;
        } else {
            out.push(bytes[at]);
            at += 1;
        }
    }
    out
}

/// The rows of the program (`KEEP_TOML_ROWS`, as tests/rows/model_cases.tsv): status, standard error, input, standard output, words.
#[test]
fn rows() {
    let Some(path) = std::env::var_os("KEEP_TOML_ROWS") else { return };
    let (mut equal, mut skipped) = (0, 0);
    for line in std::fs::read_to_string(path).unwrap().lines() {
        let fields: Vec<Vec<u8>> = line.split('\t').map(unescaped).collect();
        let status = fields[0][0] - b'0';
        let mut words: Vec<&str> = Vec::new();
        for word in &fields[4..] {
            words.push(std::str::from_utf8(word).unwrap());
        }
        if words.get(1) == Some(&"--") {
            words.remove(1);
        }
        let (call, profile) = match words[..] {
            ["check"] => (Call::Check, Profile::Strict),
            ["check-wide"] => (Call::Check, Profile::Wide),
            ["list"] => (Call::List, Profile::Strict),
            ["get", path] => (Call::Get(path), Profile::Strict),
            ["text", path] => (Call::Text(path), Profile::Strict),
            ["set", path, value] => (Call::Set(path, value), Profile::Strict),
            ["insert", path, value] => (Call::Insert(path, value), Profile::Strict),
            ["rename", path, key] => (Call::Rename(path, key), Profile::Strict),
            ["remove", path] => (Call::Remove(path), Profile::Strict),
            ["table", keys] => (Call::Table(keys), Profile::Strict),
            ["element", keys] => (Call::Element(keys), Profile::Strict),
            ["apply", script] => (Call::Apply(script), Profile::Strict),
            ["apply-wide", script] => (Call::Apply(script), Profile::Wide),
            _ => {
                skipped += 1;
                continue;
            }
        };
        let told = String::from_utf8(fields[1].clone()).unwrap();
        let told = told.strip_prefix("keep-toml: ").unwrap_or("").to_string();
        let got = match call.run(&fields[2], profile) {
            Ok(text) => (0, text, String::new()),
            Err(fault @ Fault::Refused(_)) => (1, String::new(), fault.to_string()),
            Err(fault) => (2, String::new(), fault.to_string()),
        };
        assert_eq!(got, (status, String::from_utf8(fields[3].clone()).unwrap(), told), "{line}");
        equal += 1;
    }
    println!("{equal} rows equal the program's, {skipped} have no call");
}
