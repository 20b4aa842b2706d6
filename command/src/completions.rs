//! Completions for bash, zsh and fish, made from the table.
use crate::subcommands::SUBCOMMANDS;
use crate::table::{Completes, Opt, Subcommand};

fn names() -> Vec<&'static str> {
    SUBCOMMANDS.iter().map(|subcommand| subcommand.name).collect()
}

/// What the operands of a subcommand can be: files if one of them is, else the words that any of them offers.
fn operands(subcommand: &Subcommand) -> Completes {
    let offered = |completes: &Completes| *completes != Completes::Nothing;
    let first = subcommand.operands.iter().map(|operand| operand.completes).find(offered);
    first.unwrap_or(Completes::Nothing)
}

const BASH_FRONT: &str = r#"# bash completion for winnathey
_winnathey() {
    local word=${COMP_WORDS[COMP_CWORD]} before=${COMP_WORDS[COMP_CWORD - 1]}
    local subcommands='SUBCOMMANDS' options= operands=
    if ((COMP_CWORD == 1)); then
        COMPREPLY=($(compgen -W "$subcommands help --help --version" -- "$word"))
        return
    fi
    case ${COMP_WORDS[1]} in
    help) COMPREPLY=($(compgen -W "$subcommands" -- "$word")); return ;;
"#;

const BASH_END: &str = r#"    esac
    if [[ $word == -* ]]; then
        COMPREPLY=($(compgen -W "$options" -- "$word"))
    elif [[ $operands == files ]]; then
        COMPREPLY=($(compgen -f -- "$word"))
    else
        COMPREPLY=($(compgen -W "$operands" -- "$word"))
    fi
}
complete -o filenames -F _winnathey winnathey
"#;

pub fn bash() -> String {
    let mut script = BASH_FRONT.replace("SUBCOMMANDS", &names().join(" "));
    for subcommand in &SUBCOMMANDS {
        let options: Vec<_> = subcommand.all_options().map(|option| option.name).collect();
        let operands = match operands(subcommand) {
            Completes::File => "files".to_string(),
            Completes::OneOf(words) => words.join(" "),
            Completes::Nothing => String::new(),
        };
        script += &format!("    {}) options='{}' operands='{operands}' ;;\n", subcommand.name, options.join(" "));
    }
    script += "    esac\n    case $before in\n";
    for option in valued() {
        let values = match option.completes {
            Completes::File => "$(compgen -f -- \"$word\")".to_string(),
            Completes::OneOf(words) => format!("$(compgen -W '{}' -- \"$word\")", words.join(" ")),
            Completes::Nothing => String::new(),
        };
        script += &format!("    {}) COMPREPLY=({values}); return ;;\n", option.name);
    }
    script + BASH_END
}

/// The options with a value, each name once.
fn valued() -> Vec<&'static Opt> {
    let mut found: Vec<&'static Opt> = Vec::new();
    for option in SUBCOMMANDS.iter().flat_map(Subcommand::all_options).filter(|option| option.value.is_some()) {
        if found.iter().all(|other| other.name != option.name) {
            found.push(option);
        }
    }
    found
}

/// Text between single quotes of a shell.
fn quoted(text: &str) -> String {
    text.replace('\'', "'\\''")
}

/// Text in a zsh specification, where brackets and colons have a meaning.
fn bracketed(text: &str) -> String {
    quoted(text).replace('[', "\\[").replace(']', "\\]").replace(':', "\\:")
}

const ZSH_MIDDLE: &str = "    )
    if ((CURRENT == 2)); then
        _describe subcommand subcommands
        return
    fi
    local name=$words[2]
    shift words
    ((CURRENT--))
    case $name in
    help) _describe subcommand subcommands ;;
";

pub fn zsh() -> String {
    let mut script = "#compdef winnathey\n_winnathey() {\n    local -a subcommands\n    subcommands=(\n".to_string();
    for subcommand in &SUBCOMMANDS {
        script += &format!("        '{}:{}'\n", subcommand.name, quoted(subcommand.about).replace(':', "\\:"));
    }
    script += ZSH_MIDDLE;
    for subcommand in &SUBCOMMANDS {
        script += &format!("    {})\n        _arguments", subcommand.name);
        for option in subcommand.all_options() {
            let value = option.value.map_or(String::new(), |value| format!(":{value}:{}", action(option.completes)));
            let many = if option.twice { "*" } else { "" };
            script += &format!(" \\\n            '{many}{}[{}]{value}'", option.name, bracketed(option.about));
        }
        script += &format!(" \\\n            '*:operand:{}'\n        ;;\n", action(operands(subcommand)));
    }
    script + "    esac\n}\n_winnathey \"$@\"\n"
}

fn action(completes: Completes) -> String {
    match completes {
        Completes::File => "_files".to_string(),
        Completes::OneOf(words) => format!("({})", words.join(" ")),
        Completes::Nothing => " ".to_string(),
    }
}

pub fn fish() -> String {
    let mut script = "# fish completion for winnathey\ncomplete -c winnathey -f\n".to_string();
    script += "complete -c winnathey -n __fish_use_subcommand -a help -d 'help on a subcommand'\n";
    let behind = "__fish_seen_subcommand_from help; and test (count (commandline -opc)) -eq 2";
    script += &format!("complete -c winnathey -n '{behind}' -a '{}'\n", names().join(" "));
    for subcommand in &SUBCOMMANDS {
        let about = quoted(subcommand.about).replace("'\\''", "\\'");
        script += &format!("complete -c winnathey -n __fish_use_subcommand -a {} -d '{about}'\n", subcommand.name);
        let here = format!("complete -c winnathey -n '__fish_seen_subcommand_from {}'", subcommand.name);
        for option in subcommand.all_options() {
            let name = match option.name.strip_prefix("--") {
                Some(long) => format!("-l {long}"),
                None => format!("-s {}", option.name.trim_start_matches('-')),
            };
            let value = match (option.value, option.completes) {
                (None, _) => String::new(),
                (Some(_), Completes::File) => " -r -F".to_string(),
                (Some(_), Completes::OneOf(words)) => format!(" -x -a '{}'", words.join(" ")),
                (Some(_), Completes::Nothing) => " -x".to_string(),
            };
            let about = option.about.replace('\'', "\\'");
            script += &format!("{here} {name}{value} -d '{about}'\n");
        }
        match operands(subcommand) {
            Completes::File => script += &format!("{here} -F\n"),
            Completes::OneOf(words) => script += &format!("{here} -a '{}'\n", words.join(" ")),
            Completes::Nothing => {}
        }
    }
    script
}
