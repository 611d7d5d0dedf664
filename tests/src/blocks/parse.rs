//! The fenced blocks of a Markdown file.
use crate::compare::{self, differ, Compared, Difference};
use std::iter::Enumerate;
use std::str::Lines;

/// What a block is for.
#[derive(Clone, Debug, PartialEq)]
pub enum Kind {
    /// `sh`: run by the shell.
    Shell,
    /// `text`: what the shell block right before it prints.
    Output,
    /// `rattle`: calls in Rattle.
    Rattle,
    /// `rust`: a whole program over the crate.
    Program,
    /// `c NAME`, `rust NAME`, `toml NAME`: written to a file, for the shell block behind it.
    File(String),
}

/// A fenced block.
#[derive(Clone, Debug, PartialEq)]
pub struct Block {
    pub kind: Kind,
    pub text: String,
    /// The line of its fence, counted from 1.
    pub line: usize,
    /// Whether nothing but blank lines stands between it and the block before it.
    adjacent: bool,
}

impl Block {
    /// The block as a failure names it.
    pub fn name(&self, file: &str) -> String {
        format!("{file} line {}", self.line)
    }
}

/// The blocks of a text in order; a text that has a block of another kind, or one that nothing runs, is at fault.
pub fn parse(text: &str) -> Result<Vec<Block>, Difference> {
    let mut blocks: Vec<Block> = Vec::new();
    let mut lines = text.lines().enumerate();
    let mut adjacent = false;
    while let Some((at, line)) = lines.next() {
        if let Some(words) = line.strip_prefix("```") {
            let kind = kind(words, at + 1)?;
            let text = body(&mut lines, at + 1)?;
            blocks.push(Block { kind, text, line: at + 1, adjacent });
            adjacent = true;
        } else if escapes(line) {
            return differ(format!("line {}", at + 1), line, "no block without a fence and a known word");
        } else if !line.trim().is_empty() {
            adjacent = false;
        }
    }
    in_order(&blocks)?;
    Ok(blocks)
}

fn kind(words: &str, line: usize) -> Result<Kind, Difference> {
    let words: Vec<&str> = words.split_whitespace().collect();
    match words[..] {
        ["sh"] => Ok(Kind::Shell),
        ["text"] => Ok(Kind::Output),
        ["rattle"] => Ok(Kind::Rattle),
        ["rust"] => Ok(Kind::Program),
        ["c" | "rust" | "toml", name] => Ok(Kind::File(name.to_string())),
        _ => differ(format!("word of the block at line {line}"), words, "sh, text, rattle, rust, or a file's"),
    }
}

/// The lines up to the closing fence.
fn body(lines: &mut Enumerate<Lines>, line: usize) -> Result<String, Difference> {
    let mut text = String::new();
    for (_, line) in lines {
        if line == "```" {
            return Ok(text);
        }
        text.push_str(line);
        text.push('\n');
    }
    differ(format!("block at line {line}"), "no end", "a closing fence")
}

/// Whether Markdown shows a line outside the fences as code, or may do so.
fn escapes(line: &str) -> bool {
    let start = line.trim_start();
    let code = ["```", "~~~", "<pre", "<code"];
    line.starts_with("    ") || line.starts_with('\t') || code.iter().any(|mark| start.starts_with(mark))
}

/// Every output has its shell block, and every file the shell block that uses it.
fn in_order(blocks: &[Block]) -> Compared {
    for (at, block) in blocks.iter().enumerate() {
        let what = format!("block at line {}", block.line);
        match &block.kind {
            Kind::Output => {
                let before = at.checked_sub(1).map(|at| &blocks[at].kind);
                let follows = block.adjacent && before == Some(&Kind::Shell);
                compare::same(&format!("a sh block right before the {what}"), &follows, &true)?;
            }
            Kind::File(name) => {
                let folder = name.split('/').next().unwrap_or(name);
                let next = blocks[at..].iter().find(|next| next.kind == Kind::Shell);
                let used = next.is_some_and(|next| next.text.contains(folder));
                compare::same(&format!("a use of {folder} in the sh block behind the {what}"), &used, &true)?;
            }
            _ => {}
        }
    }
    Ok(())
}
