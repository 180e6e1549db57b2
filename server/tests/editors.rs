//! Vim and emacs, set up by the blocks of docs/EDITORS.md as they stand. They are run where these editors are: `cargo
//! test -- --ignored`.
#![allow(clippy::indexing_slicing, clippy::panic, clippy::unwrap_used)]

use std::fs;
use std::path::{Path, PathBuf};
use std::process::{Command, Stdio};

const PAGE: &str = include_str!("../../docs/EDITORS.md");

/// A probe with one fault, behind a character of two bytes.
const PROBE: &str = "\
map m { type: .hash; key: u32; value: u64; max: 8; }
unit u {
    section \"xdp\";
    license \"GPL\";
    /* 0.1° */ x = 1 @ 2;
}
";

/// The block of the page in a language.
fn block(language: &str) -> String {
    let (_, behind) = PAGE.split_once(&format!("```{language}\n")).unwrap();
    let (block, _) = behind.split_once("```").unwrap();
    block.to_string()
}

struct Folder(PathBuf);

impl Folder {
    fn new(name: &str) -> Folder {
        let name = format!("spoonharbor-{name}-{}", std::process::id());
        let folder = std::env::temp_dir().join(name);
        fs::create_dir_all(&folder).unwrap();
        fs::write(folder.join("probe.snx"), PROBE).unwrap();
        Folder(folder)
    }

    /// Runs an editor in the folder, with the server on its path.
    fn run(&self, command: &mut Command) -> String {
        let server = Path::new(env!("CARGO_BIN_EXE_spoonharbor-lsp"));
        let mut paths = vec![server.parent().unwrap().to_path_buf()];
        paths.extend(std::env::split_paths(&std::env::var_os("PATH").unwrap()));
        command
            .env("PATH", std::env::join_paths(paths).unwrap())
            .env("HOME", &self.0)
            .current_dir(&self.0)
            .stdin(Stdio::null());
        let ran = command.output().unwrap();
        String::from_utf8_lossy(&ran.stderr).into_owned()
    }
}

impl Drop for Folder {
    fn drop(&mut self) {
        let _ = fs::remove_dir_all(&self.0);
    }
}

fn editors(part: &str) -> String {
    format!("{}/../editors/{part}", env!("CARGO_MANIFEST_DIR"))
}

#[test]
#[ignore = "needs vim with ALE"]
fn vim_with_ale_shows_a_fault() {
    let folder = Folder::new("vim");
    let setting = format!("set nocompatible runtimepath^={}\n", editors("vim"));
    let more = "filetype plugin on\nsyntax on\n";
    fs::write(
        folder.0.join("vimrc"),
        format!("{setting}{more}{}", block("vim")),
    )
    .unwrap();
    let script = "edit probe.snx\nlet tries = 0\n\
        while empty(ale#engine#GetLoclist(bufnr(''))) && tries < 200\nsleep 50m\nlet tries += 1\nendwhile\n\
        let told = map(copy(ale#engine#GetLoclist(bufnr(''))), 'v:val.lnum . \":\" . v:val.col . v:val.type . v:val.text')\n\
        call writefile([&filetype, b:current_syntax] + told, 'out')\nqall!\n";
    fs::write(folder.0.join("script.vim"), script).unwrap();
    let mut vim = Command::new("vim");
    vim.args(["-N", "-u", "vimrc", "--not-a-term", "-S", "script.vim"]);
    let said = folder.run(&mut vim);
    let out = fs::read_to_string(folder.0.join("out")).unwrap_or(said);
    assert_eq!(out, "solnix\nsolnix\n5:22Enothing begins with '@'\n");
}

#[test]
#[ignore = "needs emacs with eglot"]
fn emacs_with_eglot_shows_a_fault_and_its_mending() {
    let folder = Folder::new("emacs");
    let setting = format!(
        "(add-to-list 'load-path \"{}\")\n(require 'eglot)\n",
        editors("emacs")
    );
    fs::write(
        folder.0.join("init.el"),
        format!("{setting}{}", block("elisp")),
    )
    .unwrap();
    // Without a screen no command is run behind which eglot-ensure would start the server.
    let script = "(find-file \"probe.snx\")
(run-hooks 'post-command-hook)
(defun told () (mapcar (lambda (one) (list (flymake-diagnostic-beg one) (flymake-diagnostic-text one))) (flymake-diagnostics)))
(defun wait (is-done)
  (let ((tries 0))
    (while (and (< tries 200) (not (funcall is-done)))
      (accept-process-output nil 0.05) (flymake-start) (setq tries (1+ tries)))))
(wait (lambda () (told)))
(princ (format \"mode %s\\n\" major-mode))
(princ (format \"told %S\\n\" (told)))
(goto-char (point-min)) (search-forward \"@\")
(princ (format \"at %s\\n\" (1- (point))))
(delete-char -1) (insert \"+\")
(eglot--signal-textDocument/didChange)
(wait (lambda () (null (told))))
(princ (format \"then %S\\n\" (told)))
";
    fs::write(folder.0.join("script.el"), script).unwrap();
    let mut emacs = Command::new("emacs");
    emacs.args(["--batch", "-l", "init.el", "-l", "script.el"]);
    let out = folder.0.join("out");
    emacs.stdout(fs::File::create(&out).unwrap());
    let said = folder.run(&mut emacs);
    let at = PROBE.chars().position(|letter| letter == '@').unwrap() + 1;
    let wanted = format!(
        "mode solnix-mode\ntold (({at} \"spoonharbor [11]: nothing begins with '@'\"))\nat {at}\nthen nil\n"
    );
    assert_eq!(fs::read_to_string(&out).unwrap(), wanted, "{said}");
}
