//! Long texts, whose size a number gives.
use super::reading::{Form, Unwell};
use std::alloc::{AllocError, Global};

/// A head, and behind it a part so often.
fn repeated(alloc: Global, head: &str, part: &str, many: usize) -> Result<String, AllocError> {
    let mut text = String::from_str(alloc, head)?;
    for _ in 0..many {
        text.push_str(part)?;
    }
    Ok(text)
}

/// The same, with each part's place in it where it has a `#`.
fn numbered(alloc: Global, head: &str, part: &str, many: usize) -> Result<String, AllocError> {
    let mut text = String::from_str(alloc, head)?;
    for place in 0..many {
        let digits = format!(in alloc; "{place}")?;
        let part = part.replace(alloc, "#", digits.as_str())?;
        text.push_str(part.as_str())?;
    }
    Ok(text)
}

const STEP: &str = "[[step]]\nkind = \"hysteresis\"\nsensor = 5\npositive = 3\nnegative = 2\n";

const ATTRIBUTE: &str = "[[attribute]]\nname = \"Note#\"\nkind = \"string\"\nstring_type = 1\nleast = 0\nmost = 200\ndefault = \"\"\ncurrent = \"0123456789012345678901234567890123456789\"\nreadonly = false\n";

/// A board file without attributes.
const BOARD: &str = "tid = 5\nclock = 0\nlog = 2\nenables = 8\npolicy = 1\nusers = [\"\"]\nwatchdog = [0, 0, 0, 0]\nsdr = []\nboot3 = 0\nboot4 = 0\nboot5 = [0, 0, 0, 0, 0]\n\n[device]\nid = 32\nrevision = 1\nmajor = 1\nminor = 5\nsupport = 7\nmanufacturer = 1\nproduct = 1\n\n";

/// The text that is called so, and what it is read as.
fn form_and_text(alloc: Global, name: &str, many: usize) -> Result<(Form, String), Unwell> {
    Ok(match name {
        "schedule, events" => (Form::Schedule, repeated(alloc, "", "to-bmc 0\n", many)?),
        "schedule, remarks" => (Form::Schedule, repeated(alloc, "", "# a remark\n", many)?),
        "schedule, digits" => (Form::Schedule, repeated(alloc, "to-bmc ", "9", many)?),
        "schedule, bytes" => (Form::Schedule, repeated(alloc, "noise ipmb ", "0A", many)?),
        "undo, requests" => {
            let line = repeated(alloc, "smbus 03", "07", 252)?;
            let line = [line.as_str(), "\n"].concat(alloc)?;
            (Form::Undo, repeated(alloc, "undo 1\nnext ipmb 0 smbus 0\n", line.as_str(), many)?)
        }
        "undo, digits" => (Form::Undo, repeated(alloc, "undo 1\nnext ipmb ", "9", many)?),
        "undo, bytes" => (Form::Undo, repeated(alloc, "undo 1\nnext ipmb 0 smbus 0\nsmbus ", "07", many)?),
        "plan, steps" => (Form::Plan, repeated(alloc, "", STEP, many)?),
        "plan, digits" => (Form::Plan, repeated(alloc, "retries = ", "9", many)?),
        "plan, text" => {
            let mut text = repeated(alloc, "[[step]]\nkind = \"user-name\"\nuser = 2\nname = \"", "x", many)?;
            text.push_str("\"\n")?;
            (Form::Plan, text)
        }
        "plan, keys" => (Form::Plan, numbered(alloc, "", "key# = 0\n", many)?),
        "board, attributes" => (Form::Board, numbered(alloc, BOARD, ATTRIBUTE, many)?),
        "plan, brackets" => (Form::Plan, repeated(alloc, "x = ", "[", many)?),
        _ => return Err(Unwell::Words),
    })
}

/// The same; where `, tree alone` stands behind the name, it is read as a tree of TOML alone.
pub fn text_called(alloc: Global, name: &str, many: usize) -> Result<(Form, String), Unwell> {
    match name.strip_suffix(", tree alone") {
        Some(name) => Ok((Form::Tree, form_and_text(alloc, name, many)?.1)),
        None => form_and_text(alloc, name, many),
    }
}
