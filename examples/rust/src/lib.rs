//! Reads N-Triples, N-Quads, Turtle and TriG in memory, and writes N-Quads, by the two calls of rdfconv.h.
//!
//! The library needs a processor of x86-64-v2 and does not check for it.

#[derive(Clone, Copy, Debug, PartialEq, Eq)]
#[repr(u64)]
pub enum Format {
    NTriples,
    NQuads,
    Turtle,
    TriG,
}

/// What is asked for beside the format. The limits of `default()` are the program's.
#[derive(Clone, Debug)]
pub struct Options<'a> {
    /// The absolute IRI that relative references start from; empty for none.
    pub base: &'a str,
    /// Lines of a prefix with its colon, a space and an IRI, or as in Turtle or SPARQL, or comments.
    pub prefixes: &'a str,
    /// Letters and digits in front of the name of each blank node.
    pub node_prefix: &'a str,
    pub token: u64,
    pub depth: u64,
    pub bindings: u64,
    pub iri: u64,
    pub ascii: bool,
}

impl Default for Options<'_> {
    fn default() -> Self {
        Options { base: "", prefixes: "", node_prefix: "", token: 1 << 24, depth: 1 << 10, bindings: 1 << 16, iri: 1 << 20, ascii: false }
    }
}

/// What an accepted document has.
#[derive(Clone, Copy, Debug, PartialEq, Eq)]
pub struct Counts {
    pub quads: u64,
    pub tokens: u64,
    pub bytes: u64,
}

#[derive(Clone, Debug, PartialEq, Eq)]
pub enum Fault {
    /// The byte counts from 0, the line from 1; `lines` are those of the quads before the place, of `check` none.
    Refused { reason: &'static str, offset: u64, line: u64, lines: Vec<u8> },
    /// A line of the prefixes is refused.
    Prefixes { reason: &'static str, line: u64 },
    /// There is no such limit, or the base is no IRI, or the word in front of the names has another character.
    NoJob,
    Memory,
}

impl std::fmt::Display for Fault {
    fn fmt(&self, f: &mut std::fmt::Formatter) -> std::fmt::Result {
        match self {
            Fault::Refused { reason, offset, line, .. } => write!(f, "{reason} at byte {offset}, line {line}"),
            Fault::Prefixes { line, .. } => write!(f, "bad prefixes at line {line}"),
            Fault::NoJob => f.write_str("no such base, word or limit"),
            Fault::Memory => f.write_str("out of memory"),
        }
    }
}

impl std::error::Error for Fault {}

/// The lines of the document's quads.
pub fn convert(document: &[u8], format: Format, options: &Options) -> Result<Vec<u8>, Fault> {
    let (request, mut outcome) = (request(format, options), Outcome::default());
    let (base, prefixes, word) = (options.base, options.prefixes, options.node_prefix);
    let mut lines = vec![0; 2 * document.len() + 4096];
    loop {
        // Each pointer is that of a slice, with its length, and `lines` and `outcome` overlap nothing else.
        unsafe {
            rdfconv_convert(&request, base.as_ptr(), base.len(), prefixes.as_ptr(), prefixes.len(), word.as_ptr(), word.len(),
                document.as_ptr(), document.len(), lines.as_mut_ptr(), lines.len(), &mut outcome)
        }
        if outcome.needed <= lines.len() as u64 {
            break;
        }
        lines = vec![0; outcome.needed as usize];
    }
    lines.truncate(outcome.written as usize);
    if outcome.status == 0 { Ok(lines) } else { Err(fault(&outcome, lines)) }
}

/// Reads the document to its end, and counts what is in it.
pub fn check(document: &[u8], format: Format, options: &Options) -> Result<Counts, Fault> {
    let (request, mut outcome) = (request(format, options), Outcome::default());
    let (base, prefixes) = (options.base, options.prefixes);
    // As in `convert`.
    unsafe {
        rdfconv_check(&request, base.as_ptr(), base.len(), prefixes.as_ptr(), prefixes.len(), document.as_ptr(), document.len(), &mut outcome)
    }
    let Outcome { quads, tokens, bytes, .. } = outcome;
    if outcome.status == 0 { Ok(Counts { quads, tokens, bytes }) } else { Err(fault(&outcome, Vec::new())) }
}

fn request(format: Format, options: &Options) -> Request {
    let Options { token, depth, bindings, iri, ascii, .. } = *options;
    Request { format: format as u64, token, depth, bindings, iri, ascii: ascii.into() }
}

fn fault(outcome: &Outcome, lines: Vec<u8>) -> Fault {
    let reason = REASONS.get(outcome.reason as usize).copied().unwrap_or("");
    match outcome.status {
        1 => Fault::Refused { reason, offset: outcome.offset, line: outcome.line, lines },
        2 => Fault::NoJob,
        6 => Fault::Prefixes { reason, line: outcome.line },
        _ => Fault::Memory,
    }
}

/// The texts of the reasons, as RDFCONV_REASONS has them.
pub const REASONS: [&str; 17] = ["", "bad UTF-8", "no token", "bad escape", "token too long", "document too long", "out of memory",
    "ended", "unexpected token", "relative IRI", "IRI too long", "write failed", "unbound prefix", "no base", "too deep",
    "too many bindings", "bad binding"];

// As rdfconv.h has them.

#[repr(C)]
struct Request {
    format: u64,
    token: u64,
    depth: u64,
    bindings: u64,
    iri: u64,
    ascii: u64,
}

#[repr(C)]
#[derive(Default)]
struct Outcome {
    status: u64,
    reason: u64,
    offset: u64,
    line: u64,
    quads: u64,
    tokens: u64,
    bytes: u64,
    needed: u64,
    written: u64,
}

extern "C" {
    fn rdfconv_convert(request: *const Request, base: *const u8, base_len: usize, prefixes: *const u8, prefixes_len: usize,
        word: *const u8, word_len: usize, input: *const u8, input_len: usize, output: *mut u8, output_len: usize, outcome: *mut Outcome);
    fn rdfconv_check(request: *const Request, base: *const u8, base_len: usize, prefixes: *const u8, prefixes_len: usize,
        input: *const u8, input_len: usize, outcome: *mut Outcome);
}
