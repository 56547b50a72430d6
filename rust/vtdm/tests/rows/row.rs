//! Files of worked rows. The head of `.ci/rows.py` explains their form.

/// A run of the program, and what it is to write.
pub struct Run {
    /// The words of its command line.
    pub words: Vec<String>,
    /// What it reads.
    pub script: Vec<u8>,
    /// The lines that it is to write; `...` stands for any lines.
    pub output: Vec<String>,
    /// The number of the bad line that is to end it, if one is.
    pub bad_line: Option<usize>,
}

impl Run {
    /// The lines that are to be answered: those before a bad one.
    pub fn good_lines(&self) -> Vec<&str> {
        let lines = self.script.split(|it| *it == b'\n').filter(|it| !it.is_empty());
        let good = lines.take(self.bad_line.map_or(usize::MAX, |it| it - 1));
        good.map(|it| std::str::from_utf8(it).unwrap()).collect()
    }
}

/// The runs of a file.
pub fn runs_of(text: &str) -> Vec<Run> {
    let lines = text.lines().filter(|it| !it.is_empty() && !it.starts_with('#'));
    let mut runs: Vec<Run> = Vec::new();
    for line in unrolled(lines) {
        if let Some(words) = line.strip_prefix("$ vtdm ") {
            let words = words.split_whitespace().map(str::to_owned).collect();
            runs.push(Run { words, script: Vec::new(), output: Vec::new(), bad_line: None });
            continue;
        }
        let run = runs.last_mut().expect("a run begins with its command line");
        if let Some(rest) = line.strip_prefix('>') {
            run.script.extend(script_line(rest.strip_prefix(' ').unwrap_or(rest)));
        } else if let Some(said) = line.strip_prefix("! ") {
            run.bad_line = said.strip_prefix("line ").map(|it| it.parse().unwrap());
        } else if !line.starts_with("? ") {
            run.output.push(line);
        }
    }
    runs
}

/// A line of a script, with its newline, where no backslash at the end stands for that there is none.
fn script_line(text: &str) -> Vec<u8> {
    match text.strip_suffix('\\') {
        Some(rest) if !rest.ends_with('\\') => unescaped(rest),
        _ => [unescaped(text), vec![b'\n']].concat(),
    }
}

/// The lines with those of each loop as often as it says.
fn unrolled<'a>(lines: impl Iterator<Item = &'a str>) -> Vec<String> {
    let mut wanted = Vec::new();
    let mut body: Option<(u64, u64, Vec<&str>)> = None;
    for line in lines {
        if let Some((first, last)) = line.strip_prefix("@ ").and_then(|it| it.split_once("..")) {
            body = Some((first.parse().unwrap(), last.parse().unwrap(), Vec::new()));
        } else if line == "@" {
            let (first, last, lines) = body.take().expect("a loop ends that began");
            let each = |n| lines.iter().map(move |it| numbered(it, n)).collect::<Vec<_>>();
            wanted.extend((first..=last).flat_map(each));
        } else if let Some((_, _, lines)) = &mut body {
            lines.push(line);
        } else {
            wanted.push(line.to_owned());
        }
    }
    assert!(body.is_none(), "a loop without its end");
    wanted
}

/// A line of a loop with `{n}`, `{4096*n+1}` and `{hex 4096*n}` as numbers.
fn numbered(line: &str, n: u64) -> String {
    let mut told = String::new();
    let mut rest = line;
    while let Some((before, (inside, after))) = braces(rest) {
        told += before;
        let (hex, sum) = inside.strip_prefix("hex ").map_or((false, inside), |it| (true, it));
        let (product, addend) = sum.split_once('+').unwrap_or((sum, "0"));
        let factor = product.strip_suffix("*n").unwrap_or("1");
        let number = factor.parse::<u64>().unwrap() * n + addend.parse::<u64>().unwrap();
        told += &if hex { format!("{number:#x}") } else { number.to_string() };
        rest = after;
    }
    told + rest
}

/// What stands before, in and behind the first braces, but those of an escape.
fn braces(text: &str) -> Option<(&str, (&str, &str))> {
    let (before, rest) = text.split_once('{')?;
    if before.ends_with('\\') { None } else { Some((before, rest.split_once('}')?)) }
}

/// The text with `\\` as a backslash, `\xHH` as a byte, and `\{TEXT*N}` as the text N times.
fn unescaped(text: &str) -> Vec<u8> {
    let mut told = Vec::new();
    let mut rest = text;
    while let Some((before, escape)) = rest.split_once('\\') {
        told.extend(before.bytes());
        if let Some(after) = escape.strip_prefix('\\') {
            told.push(b'\\');
            rest = after;
        } else if let Some(after) = escape.strip_prefix('x') {
            told.push(u8::from_str_radix(&after[..2], 16).unwrap());
            rest = &after[2..];
        } else {
            let (inside, after) = escape[1..].split_once('}').expect("an escape's end");
            let (text, count) = inside.split_once('*').expect("a text, and how often");
            told.extend(text.repeat(count.parse().unwrap()).bytes());
            rest = after;
        }
    }
    told.extend(rest.bytes());
    told
}

/// Whether a text has these lines, each with its newline.
pub fn fits(wanted: &[String], text: &str) -> bool {
    let given: Vec<_> = text.split_inclusive('\n').collect();
    let (mut at, mut line, mut back) = (0, 0, None);
    while line < given.len() {
        let next = wanted.get(at);
        if next.is_some_and(|it| it == "...") {
            at += 1;
            back = Some((at, line));
        } else if next.is_some_and(|it| given[line].strip_suffix('\n') == Some(it)) {
            (at, line) = (at + 1, line + 1);
        } else if let Some((behind, from)) = back {
            (at, line) = (behind, from + 1);
            back = Some((behind, line));
        } else {
            return false;
        }
    }
    wanted[at..].iter().all(|it| it == "...")
}
