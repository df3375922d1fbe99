//! How much stack each call takes, measured by the program stack.c.

use crate::{lines_of, root};
use std::env;
use std::fmt::{self, Display, Formatter};
use std::process::Command;

const HEAD: &str = "\
## Stack

The most bytes of stack that each C call takes on sets of 20 years and on journals of 4,096
transactions, over all its answers, methods, bases, cuts, windows and given delays
(`rust/records/stack.c`), and what the header states, which a test holds.

| call | bytes, taken | stated |
|---|---|---|
";

/// A call's stack in bytes: the most that it takes, and what the header states.
pub struct Stack {
    pub call: String,
    pub taken: u64,
    pub stated: u64,
}

/// That of every call, measured now.
pub fn stacks() -> Result<Vec<Stack>, String> {
    let program = env::current_exe().map_err(|error| error.to_string())?;
    let program = program.with_extension("stack");
    let flags = "-std=c11 -O2 -Wall -Wextra -Wpedantic -Werror -Wl,-z,now".split(' ');
    let mut compile = Command::new("cc");
    compile.args(flags).arg("-I").arg(root().join("include"));
    compile.arg(root().join("rust/records/stack.c"));
    compile.arg(root().join("crates/c_api/out/libc_api.a"));
    said_by(compile.arg("-o").arg(&program))?;
    let said = said_by(&mut Command::new(&program))?;
    let stacks = said.lines().map(|line| read(line.split(' ')));
    let stacks: Option<Vec<Stack>> = stacks.collect();
    stacks.ok_or_else(|| format!("{} says\n{said}", program.display()))
}

/// What a program prints.
fn said_by(command: &mut Command) -> Result<String, String> {
    let output = command.output();
    let output = output.map_err(|error| format!("{command:?} does not start: {error}"))?;
    let said = String::from_utf8_lossy(&output.stdout).to_string();
    match output.status.success() {
        true => Ok(said),
        false => {
            let wrong = String::from_utf8_lossy(&output.stderr);
            Err(format!("{command:?}: {}\n{said}{wrong}", output.status))
        }
    }
}

fn read<'a>(mut words: impl Iterator<Item = &'a str>) -> Option<Stack> {
    Some(Stack {
        call: words.next()?.to_string(),
        taken: words.next()?.parse().ok()?,
        stated: words.next()?.parse().ok()?,
    })
}

/// The section of these calls.
pub fn section(stacks: &[Stack]) -> String {
    let table: String = stacks.iter().map(|stack| format!("{stack}\n")).collect();
    format!("{HEAD}{table}")
}

/// Those that the text has.
pub fn written_stacks(text: &str) -> Vec<Stack> {
    lines_of(text, "Stack")
        .filter_map(|line| read(line.strip_prefix("| ")?.strip_suffix(" |")?.split(" | ")))
        .collect()
}

impl Display for Stack {
    fn fmt(&self, to: &mut Formatter) -> fmt::Result {
        write!(to, "| {} | {} | {} |", self.call, self.taken, self.stated)
    }
}
