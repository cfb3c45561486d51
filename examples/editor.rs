//! editor FILE [PRIVILEGE=MARK]...: reads a policy from the file, the table's words (low byte first) and then the marks, and edits one mark after
//! another, as people click in an editor of policies; a mark is 0 if unset, 1 if allowed, 2 if forbidden. Says the verdict on the policy as it is
//! opened, and after each click. A click that is refused changes nothing, and the next one is made. Exits with 0 if the policy is clean at the end, 1
//! if it has a breach, 2 if it is refused or the file or a click cannot be taken.

#[allow(dead_code)]
mod policy;

use finnedscarf::{Breach, Editor, Refusal};
use policy::{read_policy, Policy};
use std::process::ExitCode;

fn say(what: &str, answer: Result<Option<Breach>, Refusal>) {
    match answer {
        Ok(None) => println!("{what}: clean"),
        Ok(Some(breach)) => println!("{what}: {breach}"),
        Err(refusal) => println!("{what}: {refusal}"),
    }
}

/// A privilege and a mark.
fn read_click(text: &str) -> Result<(usize, u8), String> {
    let click = text.split_once('=').and_then(|(privilege, mark)| Some((privilege.parse().ok()?, mark.parse().ok()?)));
    click.ok_or(format!("{text}: not a click, PRIVILEGE=MARK"))
}

/// The verdict at the end, if the policy can be opened.
fn click(arguments: &[String]) -> Result<Result<Option<Breach>, Refusal>, String> {
    let (file, clicks) = arguments.split_first().ok_or("usage: editor FILE [PRIVILEGE=MARK]...")?;
    let Policy { words, marks } = read_policy(file)?;
    let opened = Editor::open(words, &marks);
    say("opened", opened.as_ref().map(Editor::verdict).map_err(|&refusal| refusal));
    let mut editor = match opened {
        Ok(editor) => editor,
        Err(refusal) => return Ok(Err(refusal)),
    };
    for text in clicks {
        let (privilege, mark) = read_click(text)?;
        say(text, editor.edit(privilege, mark));
    }
    Ok(Ok(editor.verdict()))
}

fn main() -> ExitCode {
    let arguments: Vec<String> = std::env::args().skip(1).collect();
    match click(&arguments) {
        Ok(Ok(verdict)) => ExitCode::from(verdict.is_some() as u8),
        Ok(Err(_)) => ExitCode::from(2),
        Err(what) => {
            eprintln!("{what}");
            ExitCode::from(2)
        }
    }
}
