//! The man page and the completion for bash, made from the table of commands.

use std::fmt::Write;

use crate::commands::{self, Command};
use crate::failure::EXIT_STATUSES;
use crate::reference;

/// A line as roff takes it.
fn escaped(line: &str) -> String {
    let text = line.replace('\\', "\\e").replace('-', "\\-");
    if text.starts_with(['.', '\'']) {
        format!("\\&{text}")
    } else {
        text
    }
}

/// Lines that stay as they are.
fn verbatim(page: &mut String, text: &str) {
    page.push_str(".nf\n");
    for line in text.trim_end().lines() {
        let _ = writeln!(page, "{}", escaped(line));
    }
    page.push_str(".fi\n");
}

/// Paragraphs that roff fills, and a list of the lines that begin with two spaces and an option.
fn filled(page: &mut String, text: &str) {
    for line in text.lines() {
        let option =
            line.strip_prefix("  ").filter(|rest| !rest.starts_with(' ')).and_then(|rest| rest.split_once("  "));
        let _ = match option {
            Some((name, meaning)) => writeln!(page, ".TP\n.B {}\n{}", escaped(name), escaped(meaning.trim_start())),
            None if line.is_empty() => writeln!(page, ".PP"),
            None => writeln!(page, "{}", escaped(line.trim_start())),
        };
    }
}

/// What `osek --man` says.
pub fn page() -> String {
    let mut page = format!(
        ".TH OSEK 1 \"\" \"osek {}\"\n.SH NAME\nosek \\- the bench tool over the proved OSEK reference\n.SH SYNOPSIS\n.B osek\n\
         .I COMMAND ..\n.br\n.B osek\n.RB [ \\-\\-help | \\-\\-version ]\n.SH DESCRIPTION\n",
        reference::version()
    );
    page.push_str("Runs traces of events over configurations of an OSEK kernel and says who runs after each event, and why.\n.PP\n");
    filled(&mut page, commands::INPUTS);
    page.push_str(".SH COMMANDS\n");
    for command in commands::COMMANDS {
        let _ = writeln!(page, ".SS {}", command.name);
        let usage: Vec<String> = command.usage().iter().map(|usage| format!("osek {} {usage}", command.name)).collect();
        verbatim(&mut page, &usage.join("\n"));
        page.push_str(".PP\n");
        filled(&mut page, &command.details());
    }
    page.push_str(".SH EXIT STATUS\n");
    filled(&mut page, EXIT_STATUSES);
    page.push_str(".SH SEE ALSO\n.BR osek_host (1)\n");
    page
}

/// What `osek --completion` says: commands, then the options of the command, then files.
pub fn completion() -> String {
    let names: Vec<&str> = commands::COMMANDS.iter().map(|command| command.name).collect();
    let mut cases = String::new();
    for Command { name, accepts, .. } in commands::COMMANDS {
        let options: Vec<&str> = accepts.flags.iter().chain(accepts.values).copied().collect();
        let _ = writeln!(cases, "    {name}) options='{} --help' ;;", options.join(" "));
    }
    format!(
        "\
# Completion of osek for bash, made by osek --completion.
_osek() {{
  local word=${{COMP_WORDS[COMP_CWORD]}} options=''
  if [ \"$COMP_CWORD\" -eq 1 ]; then
    mapfile -t COMPREPLY < <(compgen -W '{} help --help --version' -- \"$word\")
    return
  fi
  case ${{COMP_WORDS[1]}} in
    help) options='{}' ;;
{cases}  esac
  if [[ $word == -* || ${{COMP_WORDS[1]}} == help ]]; then
    mapfile -t COMPREPLY < <(compgen -W \"$options\" -- \"$word\")
  else
    mapfile -t COMPREPLY < <(compgen -f -- \"$word\")
  fi
}}
complete -o filenames -F _osek osek
",
        names.join(" "),
        names.join(" ")
    )
}
