//! The calls beside what the README of rdfconv says of the program.
use rdfconv_sys::{check, convert, Counts, Fault, Format, Options};

const DOCUMENT: &[u8] = b"@prefix ex: <http://e/> . ex:a ex:b 1, [] .";

#[test]
fn a_document_becomes_lines() {
    let lines = convert(DOCUMENT, Format::Turtle, &Options::default()).unwrap();
    let wanted = "<http://e/a> <http://e/b> \"1\"^^<http://www.w3.org/2001/XMLSchema#integer> .\n<http://e/a> <http://e/b> _:a39 .\n";
    assert_eq!(String::from_utf8(lines).unwrap(), wanted);
    assert_eq!(check(DOCUMENT, Format::TriG, &Options::default()), Ok(Counts { quads: 2, tokens: 11, bytes: 43 }));
}

#[test]
fn a_refusal_has_its_place_and_the_lines_before() {
    let document = b"<a:s> <a:p> <a:o> .\n<s> <a:p> <a:o> .\n";
    let wanted = Fault::Refused { reason: "relative IRI", offset: 20, line: 2, lines: b"<a:s> <a:p> <a:o> .\n".to_vec() };
    assert_eq!(convert(document, Format::NTriples, &Options::default()), Err(wanted.clone()));
    assert_eq!(wanted.to_string(), "relative IRI at byte 20, line 2");
    let refused = check(document, Format::NQuads, &Options::default()).unwrap_err();
    assert!(matches!(refused, Fault::Refused { reason: "relative IRI", offset: 20, line: 2, lines } if lines.is_empty()));
}

#[test]
fn base_prefixes_word_and_ascii_are_handed_on() {
    let options = Options { base: "http://e/x", prefixes: "p: http://p/\n", node_prefix: "w1", ascii: true, ..Options::default() };
    let lines = convert("<é> p:a _:b .".as_bytes(), Format::Turtle, &options).unwrap();
    assert_eq!(String::from_utf8(lines).unwrap(), "<http://e/\\u00E9> <http://p/a> _:w1nb .\n");
}

#[test]
fn lines_longer_than_the_first_room_come_whole() {
    let long = "a".repeat(100_000);
    let document = format!("@prefix p: <http://e/{long}> . p:a p:b {} p:c .", "p:c,".repeat(20));
    let lines = convert(document.as_bytes(), Format::Turtle, &Options::default()).unwrap();
    assert_eq!(lines.iter().filter(|&&byte| byte == b'\n').count(), 21);
    assert!(lines.len() > 21 * 3 * long.len());
}

#[test]
fn other_faults_are_told_apart() {
    assert_eq!(check(b"", Format::Turtle, &Options { base: "no iri", ..Options::default() }), Err(Fault::NoJob));
    assert_eq!(check(b"", Format::Turtle, &Options { token: 0, ..Options::default() }), Err(Fault::NoJob));
    let wanted = Fault::Prefixes { reason: "bad binding", line: 2 };
    assert_eq!(check(b"", Format::Turtle, &Options { prefixes: "p: a:b\nq a:b\n", ..Options::default() }), Err(wanted));
    let deep = check(b"<a:s> <a:p> ((1)) .", Format::Turtle, &Options { depth: 1, ..Options::default() }).unwrap_err();
    assert_eq!(deep.to_string(), "too deep at byte 13, line 1");
}

#[test]
fn an_empty_document_is_accepted() {
    assert_eq!(convert(b"", Format::TriG, &Options::default()), Ok(Vec::new()));
}
