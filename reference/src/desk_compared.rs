//! Runs the Rattle program `puxerdau` on many words and texts and holds what
//! it prints against what this implementation gives.

use crate::common::Random;
use crate::comparison::{output_of, output_without_text};
use crate::desk_case_texts::{any_survey, any_text};
use crate::desk_case_words::{any_command, any_words, COMMANDS};

struct Case {
    words: Vec<Vec<u8>>,
    text: Vec<u8>,
}

/// From this many cases on, every kind of outcome and every form of a line
/// must be met.
const ENOUGH: usize = 3000;

/// The refusals that the program can give.
const REFUSALS: [u8; 10] = [1, 2, 3, 4, 5, 6, 7, 10, 13, 14];

/// What a line without an answer says, but for a refusal: a name, and how
/// the line is known. Nothing of the words or the text is in such a line.
const OTHER_LINES: [(&str, &str); 5] = [
    (
        "no command",
        "not understood: the first word is not a command;",
    ),
    (
        "no number",
        " is not a number (one to ten digits, no leading zero); usage: ",
    ),
    ("one too many", " is one too many; usage: "),
    ("missing", "not understood: a word is missing;"),
    ("not taken", "not taken: "),
];

/// Parts of lines of which each form of an answer and of a refusal has one,
/// and the usage of each command.
const FORMS: [&str; 46] = [
    " by itself\nexactly 0 links are needed\n",
    " by link\nexactly 1 link is needed\n",
    " report 2 by low nodes\nexactly 2 links are needed\n",
    " by low nodes\nat least ",
    " report 2 by hub ",
    "\nat least 2 and at most 3 links are needed\n",
    "\nat least 2 and at most 4 links are needed\n",
    "\nat least 3 and at most 5 links are needed\n",
    " report no route\nno chain of links joins them\n",
    " needed\nwalk ",
    "parted after 1 search\nsome two nodes are joined by no chain of links\n",
    "parted after 2 searches\n",
    "long after 2 searches\nevery two nodes are joined, and some two are 3 or more",
    "short after 1 search\nevery two nodes are at most 3 links apart\n",
    "short after 2 searches\n",
    "0 hubs\nhigh nodes 0 of ",
    "1 hub: ",
    "2 hubs: ",
    ",low\n",
    ",link\n",
    ",-,-\n",
    "refused 1 at line 1: the first line of a survey is ",
    "refused 1 at line 2: a link line is ",
    ": a survey has 1 to 1024 nodes\n",
    ": reports takes 1 to 128 nodes\n",
    ": a survey has at most 16384 links\n",
    ": reports takes at most 2048 links\n",
    ": a file has at most 16384 lines e a b\n",
    "refused 4 at line 2: the nodes are 0 to ",
    ": the nodes are 1 to ",
    ": the nodes are 0 to 0\n",
    "refused 7 at line 2: ",
    "refused 13 at line 1: ",
    "refused 14 at threshold 1025: ",
    "word 1 after the command is not a number",
    "word 3 after the command is one too many",
    "usage: puxerdau pair A B [--threshold T] < survey.txt\n",
    "usage: puxerdau walk A B [--threshold T] < survey.txt\n",
    "a word is missing; usage: puxerdau test [--threshold T] < survey.txt\n",
    "a word is missing; usage: puxerdau hubs [--threshold T] < survey.txt\n",
    "a word is missing; usage: puxerdau reports [--threshold T] < survey.txt\n",
    "usage: puxerdau check < survey.txt\n",
    "usage: puxerdau write < survey.txt\n",
    "usage: puxerdau export < survey.txt\n",
    "is one too many; usage: puxerdau import < edges.col\n",
    "usage: puxerdau help\n",
];

/// Longer words and texts are shown in part.
const SHOWN_BYTES: usize = 4000;

/// Runs the program on cases made from a seed; the first that differs ends
/// the run and is printed.
pub fn run(program: &str, count: usize, seed: u64) -> Result<(), String> {
    let mut random = Random::new(seed);
    let mut counts = Counts::new();
    for number in 0..count {
        let case = any_case(&mut random);
        let words: Vec<&[u8]> = case.words.iter().map(Vec::as_slice).collect();
        let expected = reference::desk(&words, &case.text);
        let printed = output_of(program, &case.words, &case.text);
        hold(&expected, printed).map_err(|differs| {
            let shown = case.show(program);
            format!("case {number} of seed {seed} differs\n{differs}\n{shown}")
        })?;
        counts.add(&kind_of(&case, &expected));
        let lines = String::from_utf8_lossy(&expected);
        for form in FORMS.iter().filter(|&&form| lines.contains(form)) {
            counts.add(form);
        }
    }
    for command in &COMMANDS {
        let words = command.few_words();
        let slices: Vec<&[u8]> = words.iter().map(Vec::as_slice).collect();
        let printed = output_without_text(program, &words);
        hold(&reference::desk(&slices, b""), printed)
            .map_err(|differs| format!("{} without a text differs\n{differs}", command.name))?;
    }
    println!("{count} cases agree, and each command where the text cannot be read");
    println!("{}", counts.show());
    if count >= ENOUGH {
        counts.check_all_met()?;
    }
    Ok(())
}

/// Says what differs, if the two do.
fn hold(expected: &Vec<u8>, printed: Result<Vec<u8>, String>) -> Result<(), String> {
    if printed.as_ref() == Ok(expected) {
        return Ok(());
    }
    let printed = printed.map_or_else(|error| error, |bytes| show_bytes(&bytes));
    let expected = show_bytes(expected);
    Err(format!("expected: {expected}\nprinted: {printed}"))
}

fn any_case(random: &mut Random) -> Case {
    let command = any_command(random);
    let sample = any_survey(random);
    let text = any_text(random, command.name, &sample);
    let words = any_words(random, command, sample.n);
    Case { words, text }
}

impl Case {
    /// The words on one line, and the text. A long text is kept in a file
    /// beside the program.
    fn show(&self, program: &str) -> String {
        let words: Vec<String> = self.words.iter().map(|word| show_bytes(word)).collect();
        let words = words.join(" ");
        if self.text.len() <= SHOWN_BYTES {
            let text = String::from_utf8_lossy(&self.text);
            return format!("words: {words}\ntext:\n{text}");
        }
        let file = format!("{program}.case");
        let kept = match std::fs::write(&file, &self.text) {
            Ok(()) => format!("the whole is in {file}"),
            Err(error) => format!("{file}: {error}"),
        };
        let text = show_bytes(&self.text);
        format!("words: {words}\ntext, {kept}: {text}")
    }
}

/// The bytes in quotes, those that cannot be printed as escapes; only the
/// first of many.
fn show_bytes(bytes: &[u8]) -> String {
    let shown = &bytes[..bytes.len().min(SHOWN_BYTES)];
    let rest = match bytes.len() - shown.len() {
        0 => String::new(),
        more => format!(" and {more} bytes more"),
    };
    format!("\"{}\"{rest}", shown.escape_ascii())
}

/// How often each kind of outcome was met, in the order of printing.
struct Counts(Vec<(String, usize)>);

impl Counts {
    fn new() -> Counts {
        let answered = COMMANDS.map(|command| String::from(command.name));
        let refused = REFUSALS.map(|refusal| format!("refused {refusal}"));
        let others = OTHER_LINES.map(|(name, _)| String::from(name));
        let forms = FORMS.map(String::from);
        let kinds = answered
            .into_iter()
            .chain(refused)
            .chain(others)
            .chain(forms);
        Counts(kinds.map(|kind| (kind, 0)).collect())
    }

    fn add(&mut self, kind: &str) {
        let entry = self.0.iter_mut().find(|(name, _)| name == kind);
        entry.expect("a kind that can be").1 += 1;
    }

    fn show(&self) -> String {
        let shown: Vec<String> = self
            .0
            .iter()
            .map(|(kind, count)| format!("{count} {:?}", kind.trim()))
            .collect();
        shown.join(", ")
    }

    fn check_all_met(&self) -> Result<(), String> {
        let never: Vec<&str> = self
            .0
            .iter()
            .filter(|(_, count)| *count == 0)
            .map(|(kind, _)| kind.as_str())
            .collect();
        if never.is_empty() {
            Ok(())
        } else {
            Err(format!("never met: {}", never.join(", ")))
        }
    }
}

/// The command that is answered, or the kind of line that says why none is.
fn kind_of(case: &Case, printed: &[u8]) -> String {
    let printed = String::from_utf8_lossy(printed);
    let mut fields = printed.split(' ');
    match fields.next() {
        Some("refused") => format!("refused {}", fields.next().unwrap_or_default()),
        Some("not") => {
            let kind = OTHER_LINES.iter().find(|(_, part)| printed.contains(part));
            String::from(kind.expect("a kind of line").0)
        }
        _ => match case.words.first() {
            Some(name) => String::from_utf8_lossy(name).into_owned(),
            None => String::from("help"),
        },
    }
}
