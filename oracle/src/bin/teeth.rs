//! Shows that the comparison has teeth: one-step changes are made to the definitions, one at a time, and each must be noticed.
//! `teeth ROOT SCRATCH SEED CASES [WORD]`: only the changes whose line has WORD. A change that CASES cases do not notice is tried on six
//! times as many. The last line is `N changes, M unnoticed`.

use oracle::scratch;
use oracle::theorems::Theorem;
use std::path::Path;
use std::process::exit;
use std::{env, fs};

/// A file of crates/definition/specs, a text that stands in it once, and what takes its place.
type Edit = (&'static str, &'static str, &'static str);

#[rustfmt::skip]
const EDITS: &[Edit] = &[
    ("Utf8", "when eqb a 0xe0 then 0xa0", "when eqb a 0xe0 then 0x80"),
    ("Utf8", "when eqb a 0xf4 then 0x8f", "when eqb a 0xf4 then 0xbf"),
    ("Utf8", "within 0xc2 0xf4 a", "within 0xc0 0xf4 a"),
    ("Char", "else when eqb n 0x85 then false", "else when eqb n 0x86 then false"),
    ("Char", "within 0xfffe 0xffff n", "within 0xffff 0xffff n"),
    ("Quote", "ltb b 0x20 || eqb b 0x7f", "ltb b 0x20 || eqb b 0x7e"),
    ("Quote", "not (has APOSTROPHE s) &&", "not (has QUOTE s) &&"),
    ("Quote", "else 87 + d", "else 55 + d"),
    ("Quote", "when leb n 0xff then", "when leb n 0x7f then"),
    ("Quote", "when eqb n 0 then BACKSLASH ∷ 48", "when eqb n 1 then BACKSLASH ∷ 48"),
    ("Fold", "not (eqb (get_or s 0 SP) SP)", "not (eqb (get_or s 0 0) SP)"),
    ("Fold", "(col + 1 + ahead f.weight true s)", "(col + ahead f.weight true s)"),
    ("Fold", "folded f true f.indent s)", "folded f true 0 s)"),
    ("Fold", "when eqb b LF then 0 else on", "when eqb b LF then 1 else on"),
    ("Block", "eqb b SP || eqb b TAB", "eqb b SP || eqb b CR"),
    ("Block", "when is_nil body then '+' ∷ [] else []", "when is_nil body then [] else []"),
    ("Block", "replicate n LF", "replicate (suc n) LF"),
    ("Block", "LF ∷ indented indent true s", "LF ∷ indented indent false s"),
    ("Settings", "when eqb s.indent 0 then 2", "when eqb s.indent 0 then 1"),
    ("Scalar", "eqb (get_or s 0 SP) SP then true", "eqb (get_or s 0 0) SP then true"),
    ("Scalar", "has OPEN t || has CLOSE t", "has OPEN t || has OPEN t"),
    ("Scalar", "indent = max col 1", "indent = max col 2"),
    ("Scalar", "(flow && unsafe_in_flow t)", "(key && unsafe_in_flow t)"),
    ("Scalar", "ltb s.width (col + size", "leb s.width (col + size"),
    ("Scalar", "when flow then quoted false t", "when flow then quoted true t"),
    ("Scalar", "leb s.width (col + weight_of s COMMA)", "leb s.width col"),
    ("Scalar", "LF ∷ spaces (max i 1)", "LF ∷ spaces (max i 2)"),
    ("Pen", "is_at (some q) p = eqb q p", "is_at (some q) p = true"),
    ("Pen", "eqb b LF || eqb b CR", "eqb b LF || eqb b LF"),
    ("Pen", "when eqb b LF && eqb (length out) e", "when eqb b LF && eqb e e"),
    ("Pen", "spaces (max c.spaces 1)", "spaces (max c.spaces 2)"),
    ("Walk", "then heads_below a i else nothing", "then heads a i else nothing"),
    ("Walk", "then heads_above a i else heads a i", "then heads a i else heads a i"),
    ("Walk", "(when is_some b.anchor then SP ∷ [] else [])", "(when is_some b.tag then SP ∷ [] else [])"),
    ("Walk", "needs_explicit a (alias t) = a.layout.explicit_key", "needs_explicit a (alias t) = false"),
    ("Walk", "(not first && a.layout.synthetic", "(first && a.layout.synthetic"),
    ("Walk", "colon (alias t) = sign SP >> sign ':'", "colon (alias t) = nothing >> sign ':'"),
    ("Walk", "is_block_style y && not flow", "is_block_style y && flow"),
    ("Walk", "when modified then w else replay p r", "when modified then replay p r else replay p r"),
    ("Walk", "not (a.layout.synthetic && is_null k)", "not a.layout.synthetic"),
    ("Walk", "when leb a.layout.column i then i", "when leb i a.layout.column then i"),
    ("Walk", "s.indentless && not (is_some b.tag)", "s.indentless && not (is_some b.anchor)"),
    ("Walk", "when has_props b && not (is_sequence k)", "when has_props b && is_sequence k"),
    ("Walk", "not (is_some a.inline || a.layout.inline_before)", "not (is_some a.inline)"),
    ("Walk", "lined_pairs key (i + step_of s) ps", "lined_pairs key (i + 2) ps"),
    ("Walk", "comment (place v) (kept v).inline", "comment (place k) (kept k).inline"),
    ("Walk", "content false true (i + step_of s)", "content false false (i + step_of s)"),
    ("Walk", "dash_block p a b (item_column b i k) (i + 2)", "dash_block p a b (item_column b i k) (item_column b i k)"),
    ("Walk", "let inline = inline_key k (content false true i k)", "let inline = inline_key k (content false false i k)"),
    ("Document", "when not (is_nil a.directives) then dots", "when not (is_nil a.directives) then dashes"),
    ("Document", "not (is_sequence k && s.indentless)", "not s.indentless"),
    ("Document", "not (is_some a.inline) && not (is_some b.anchor)", "not (is_some a.inline)"),
    ("Document", "when included a && not passed", "when included a && not false"),
    ("Document", "inlined p a b (content s false false (step_of s)", "inlined p a b (content s false false 2"),
    ("Change", "(not (included (kept x)) && local_modified x)", "(not (included (kept x)) || local_modified x)"),
    ("Change", "(local_modified k || (not", "((not (included (kept k)) && local_modified k) || (not"),
    ("Change", "(not (included (kept v)) && local_modified v)", "local_modified v"),
    ("Change", "boundaries k ++ (boundaries v", "boundaries v ++ (boundaries k"),
    ("Records", "65536 * word_at deck (at + 3)", "65536 * word_at deck (at + 2)"),
    ("Deck", "(eqb k 0x04 || eqb k 0x06 || eqb k 0x08)", "(eqb k 0x05 || eqb k 0x06 || eqb k 0x08)"),
    ("Deck", "when ltb (length pool) (t.from + t.len)", "when leb (length pool) (t.from + t.len)"),
    ("Deck", "ltb (byte_at deck (at + 5)) 128", "ltb (byte_at deck (at + 5)) 64"),
    ("Deck", "deepest = 64", "deepest = 65"),
    ("Deck", "fault 6 w.place", "fault 6 c.at"),
    ("Deck", "then fault 7 (length deck)\n      else", "then fault 7 c.at\n      else"),
    ("Deck", "marked l.marks 4", "marked l.marks 8"),
    ("Calls", "number = n;\n      place = 0;", "number = 10;\n      place = 0;"),
    ("Calls", "output = replicate (length x.output) 0", "output = x.output"),
    ("Calls", "ltb 16 s.indent", "ltb 17 s.indent"),
    ("Calls", "ltb 65535 s.width", "ltb 65536 s.width"),
    ("Calls", "entries (start + length w.bytes) ws", "entries start ws"),
    ("Calls", "when ltb (length x.output) (length t)", "when ltb (length x.output) (suc (length t))"),
    ("Program", "ltb 65536 n then", "ltb 65537 n then"),
];

fn main() {
    let words: Vec<String> = env::args().skip(1).collect();
    if words.len() < 4 {
        fail("usage: teeth ROOT SCRATCH SEED CASES [WORD]");
    }
    let (Ok(seed), Ok(cases)) = (words[2].parse(), words[3].parse()) else {
        fail("SEED and CASES are numbers.");
    };
    let wanted = words.get(4).map_or("", String::as_str);
    let sets = [("few", cases), ("many", 6 * cases)].map(|(name, cases)| {
        let folder = Path::new(&words[1]).join(name);
        let theorems = scratch::draw(seed, cases);
        if let Err(error) = scratch::write(Path::new(&words[0]), &folder, &theorems) {
            fail(&format!(
                "The scratch repository cannot be written: {error}."
            ));
        }
        (folder, theorems)
    });
    let mut tried = 0;
    let mut unnoticed = 0;
    for edit in EDITS
        .iter()
        .filter(|edit| format!("{edit:?}").contains(wanted))
    {
        let noticed = sets
            .iter()
            .map(|(folder, theorems)| try_edit(folder, theorems, edit))
            .find(|&noticed| noticed > 0);
        tried += 1;
        unnoticed += usize::from(noticed.is_none());
        println!(
            "{} notice {}: {} → {}",
            noticed.unwrap_or(0),
            edit.0,
            edit.1,
            edit.2
        );
    }
    println!("{tried} changes, {unnoticed} unnoticed");
    exit(i32::from(unnoticed > 0));
}

fn fail(why: &str) -> ! {
    eprintln!("{why}");
    exit(2)
}

/// How many theorems refuse the changed definitions, which are then put right again.
fn try_edit(folder: &Path, theorems: &[Theorem], edit: &Edit) -> usize {
    let file = folder.join(format!("crates/definition/specs/{}.antt", edit.0));
    let right = fs::read_to_string(&file).unwrap_or_else(|error| fail(&error.to_string()));
    if right.matches(edit.1).count() != 1 {
        fail(&format!("`{}` does not stand once in {}.", edit.1, edit.0));
    }
    let write = |text: &str| {
        if let Err(error) = fs::write(&file, text) {
            fail(&error.to_string());
        }
    };
    write(&right.replace(edit.1, edit.2));
    let noticed = scratch::check(folder, theorems).unwrap_or_else(|why| fail(&why));
    write(&right);
    noticed.len()
}
