//! The commands: what each is called with and its help. What each does is in `operations`, the reader in `read`.
use crate::arguments::{Arguments, Options};
use crate::trouble::{Outcome, Trouble};
use crate::{files, operations, read};
use std::fmt::Write;

struct Command {
    name: &'static str,
    /// The words behind the name.
    words: &'static str,
    options: Options,
    summary: &'static str,
    help: &'static str,
    run: fn(&Arguments) -> Outcome,
}

const COMMANDS: [Command; 13] = [
    Command {
        name: "check",
        words: "PLAN",
        options: Options::NONE,
        summary: "says of what format a plan is, how many rules it has and where it starts",
        help: "",
        run: operations::check,
    },
    Command {
        name: "measure",
        words: "PLAN",
        options: Options::NONE,
        summary: "counts the forest's trees, entries and levels",
        help: "A node with label 0 is a divider line: trees and levels include it, entries don't. A forest of more than 2^64 - 1 nodes is\n\
               refused with 11.\n",
        run: operations::measure,
    },
    Command {
        name: "spread",
        words: "[--decimal] [--most BYTES] PLAN",
        options: Options { valued: &["--most"], flags: &["--decimal"] },
        summary: "writes the forest out as text",
        help: "  --decimal     labels as decimal numbers, not as bytes\n  \
               --most BYTES  the longest text, before labels are made decimal; 268435456 if not given\n\
               A longer text is refused with 11.\n",
        run: operations::spread,
    },
    Command {
        name: "rules",
        words: "PLAN",
        options: Options::NONE,
        summary: "writes the rules as text, one a line: 7 = pair 6 3",
        help: "The format and the start rule come first. 'mealplan seal' makes the plan of that text again.\n",
        run: operations::write_rules,
    },
    Command {
        name: "seal",
        words: "[-o PLAN] RULES.txt",
        options: Options { valued: &["-o"], flags: &[] },
        summary: "makes a plan of rules as text",
        help: "  -o PLAN  the file to write; standard output if not given\n\
               A line is 'narrow', 'wide', 'start 7' or a rule: 0 = empty, 1 = node LABEL RULE, 2 = pair RULE RULE,\n\
               3 = part LABEL RULE RULE, 4 = join RULE RULE, 5 = fill RULE RULE. Behind # is a comment. If nothing else is said\n\
               the plan is narrow unless a label is above 255, and starts with its last rule.\n",
        run: operations::seal,
    },
    Command {
        name: "show",
        words: "[--rule R] [--depth N] [--lines N] [--at KEYS] PLAN",
        options: Options { valued: &["--rule", "--depth", "--lines", "--at"], flags: &[] },
        summary: "shows the forest as an indented tree, of any plan however large",
        help: "  --rule R   the forest of this rule alone; of the start if not given\n  \
               --depth N  the most levels; all if not given. Behind a node that has more below it stands ...\n  \
               --lines N  the most lines; 200 if not given\n  \
               --at KEYS  only the node that these keys lead to from above the forest, and what is below it\n",
        run: operations::show,
    },
    Command {
        name: "walk",
        words: "[--rule R] PLAN KEYS",
        options: Options { valued: &["--rule"], flags: &[] },
        summary: "walks by keys from above the forest: a line for each, with its label, or - for nowhere",
        help: "  --rule R  the forest of this rule alone; of the start if not given. A rule that isn't closed is refused with 10\n\
               Keys: a, z first, last root; f, l first, last child; n, p next, previous sibling; u parent; s stay.\n",
        run: operations::walk,
    },
    Command {
        name: "why",
        words: "[--rule R] PLAN KEYS ASKED",
        options: Options { valued: &["--rule"], flags: &[] },
        summary: "says why a key does nothing, or that it moves, where other keys lead to from above the forest",
        help: "  --rule R  the forest of this rule alone; of the start if not given. A rule that isn't closed is refused with 10\n\
               KEYS lead to the place, '' to none; ASKED are the keys asked about, each by itself. For each there is a line with the key, a\n\
               number and words: 0 it moves, 1 above the forest and neither a nor z, 2 the forest is empty, 3 f or l without children,\n\
               4 n on the last of its siblings, 5 p on the first, 6 u on a root.\n",
        run: operations::why,
    },
    Command {
        name: "compare",
        words: "[--rule R] [--with-rule R] [--budget N] PLAN KEYS KEYS",
        options: Options { valued: &["--rule", "--with-rule", "--budget"], flags: &[] },
        summary: "compares the subtrees at two places, each told by keys from above the forest",
        help: "  --rule R       the rule in whose forest both places are; the start if not given\n  \
               --with-rule R  another one for the second place\n  \
               --budget N     the most pairs of nodes; 10000000 if not given\n\
               It says 'same' with the number of nodes, 'differ' with the place, from 1, of the first pair that does, or 'spent' with\n\
               the budget. A place above the forest is refused with 10.\n",
        run: operations::compare,
    },
    Command {
        name: "classes",
        words: "LIST.txt [LABEL..]",
        options: Options::NONE,
        summary: "checks a list of who may read which label, and tells the class of labels",
        help: "A line is a row: its lowest label, its highest, its class, 0 to 3, and, where an entry weighs anything, its grams, up to 65535.\n\
               Behind # is a comment. The rows stand in label order and cover 0 to 16777215 once.\n",
        run: operations::classes,
    },
    Command {
        name: "copy",
        words: "[-o COPY] PLAN LIST.txt CLASS",
        options: Options { valued: &["-o"], flags: &[] },
        summary: "makes the copy of a plan for a client of a class, who sees no node of a higher one",
        help: "  -o COPY  the file to write; standard output if not given\n\
               The list is one as 'mealplan classes' takes it.\n",
        run: operations::copy,
    },
    Command {
        name: "grams",
        words: "PLAN LIST.txt",
        options: Options::NONE,
        summary: "weighs a plan: the grams of all nodes, by a list that tells them",
        help: "The list is one as 'mealplan classes' takes it; a row of three numbers weighs nothing.\n\
               A sum of more than 2^64 - 1 grams is refused with 11.\n",
        run: operations::grams,
    },
    Command {
        name: "read",
        words: "[--rule R] PLAN",
        options: Options { valued: &["--rule"], flags: &[] },
        summary: "a reader to try, in the terminal",
        help: read::HELP,
        run: read::run,
    },
];

const END: &str = "PLAN may be - for standard input, but for read. Exit status: 0 done, 1 refused, 2 called wrongly or a file can't be used.\n";

/// Runs what the words say.
pub fn run(words: &[String]) -> Outcome {
    let Some((name, words)) = words.split_first() else {
        return Err(Trouble::Usage(format!("what is to be done?\n{}", overview())));
    };
    match (name.as_str(), words) {
        ("--help" | "-h" | "help", []) => return files::print(overview().as_bytes()),
        ("--help" | "-h" | "help", [name, ..]) => return files::print(command(name)?.told().as_bytes()),
        ("--version" | "-V", _) => {
            return files::print(concat!("mealplan ", env!("CARGO_PKG_VERSION"), "\n").as_bytes());
        }
        _ => {}
    }
    let command = command(name)?;
    if words.iter().take_while(|word| *word != "--").any(|word| word == "--help" || word == "-h") {
        return files::print(command.told().as_bytes());
    }
    let usage = |trouble| match trouble {
        Trouble::Usage(wrong) => Trouble::Usage(format!("{wrong}\n{}", command.usage())),
        other => other,
    };
    let arguments = Arguments::of(words, command.options).map_err(usage)?;
    (command.run)(&arguments).map_err(usage)
}

fn command(name: &str) -> Result<&'static Command, Trouble> {
    let found = COMMANDS.iter().find(|command| command.name == name);
    found.ok_or_else(|| Trouble::Usage(format!("there is no command '{name}'; 'mealplan --help' lists them")))
}

fn overview() -> String {
    let mut text = String::from("usage: mealplan COMMAND ..\n\n");
    for command in &COMMANDS {
        // A string takes all.
        let _ = writeln!(text, "  {:<8} {}", command.name, command.summary);
    }
    text + "\n'mealplan COMMAND --help' says more. " + END
}

impl Command {
    fn usage(&self) -> String {
        format!("usage: mealplan {} {}", self.name, self.words)
    }

    fn told(&self) -> String {
        format!("{}\n\n{}: {}.\n{}\n{END}", self.usage(), self.name, self.summary, self.help)
    }
}

#[cfg(test)]
mod tests {
    use super::*;

    #[test]
    fn every_command_has_help() {
        for command in &COMMANDS {
            assert!(command.told().starts_with("usage: mealplan "));
            assert!(overview().contains(command.summary));
            assert!(command.help.is_empty() || command.help.ends_with('\n'), "{}", command.name);
            for option in command.options.valued.iter().chain(command.options.flags) {
                assert!(command.words.contains(option) && command.help.contains(option), "{option}");
            }
        }
    }

    #[test]
    fn what_is_called_wrongly_is_told() {
        let words = |text: &str| text.split(' ').map(str::to_owned).collect::<Vec<String>>();
        for text in [
            "mend x",
            "check",
            "check a b",
            "walk a",
            "check --deep a",
            "show --depth x a",
            "walk --rule x a a",
            "why a a",
            "why --rule x a a a",
            "walk --rule 65536 a a",
            "measure --rule 3 a",
            "help mend",
        ] {
            assert!(matches!(run(&words(text)), Err(Trouble::Usage(_))), "{text}");
        }
        assert!(matches!(run(&[]), Err(Trouble::Usage(_))));
    }
}
