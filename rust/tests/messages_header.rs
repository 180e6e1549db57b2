//! The C header of messages: it is what the crate's table says, and C and C++ programs read it.

mod shared;

use shared::{repository, run, Folder};
use spoonharbor::diagnostic::explained;

#[allow(dead_code)]
#[path = "../examples/messages.rs"]
mod messages;

#[test]
fn the_header_is_the_table() {
    let header = include_str!("../../include/spoonharbor_messages.h");
    assert!(
        header == messages::header(),
        "write it anew: cargo run --offline --example messages > ../include/spoonharbor_messages.h"
    );
}

const PROGRAM: &str = r#"
#include <stdio.h>
#include "spoonharbor.h"
#include "spoonharbor_messages.h"

int main(void)
{
    for (uint32_t number = 0; number < 200; number++) {
        const struct spoonharbor_message *message = spoonharbor_message(number);
        if (message != NULL) {
            printf("%u|%s|%s|%s|%s\n", (unsigned)number, message->title, message->meaning, message->refused, message->fine);
        }
    }
    printf("%s %s %d\n", spoonharbor_kind_name(SH_ROW_KIND_SEMICOLON), spoonharbor_kind_name(SH_ROW_KIND_EOF),
           spoonharbor_kind_name(16) == NULL && spoonharbor_kind_name(53) == NULL);
    return 0;
}
"#;

/// A compiler that is not here is left out.
#[test]
fn c_and_cpp_programs_have_the_texts() {
    let folder = Folder::new("c-messages");
    folder.file("program.c", PROGRAM);
    let refusals = explained().iter().filter(|one| one.number < 100);
    let mut wanted: String = refusals
        .map(|one| {
            format!(
                "{}|{}|{}|{}|{}\n",
                one.number, one.title, one.meaning, one.refused, one.fine
            )
        })
        .collect();
    wanted += "';' end of file 1\n";
    let strict = ["-Wall", "-Wextra", "-Werror", "-pedantic", "-o", "program"];
    for (compiler, language) in [
        ("cc", ["-std=c99", "-xc"]),
        ("c++", ["-std=c++11", "-xc++"]),
    ] {
        if folder.program(compiler).arg("--version").output().is_err() {
            continue;
        }
        let mut command = folder.program(compiler);
        command.arg("-I").arg(repository().join("include"));
        command.args(strict).args(language).arg("program.c");
        let built = run(&mut command, b"");
        assert_eq!((built.complaints.as_str(), built.status), ("", 0));
        let ran = run(&mut folder.program(folder.0.join("program")), b"");
        assert_eq!(ran.out, wanted, "{compiler}");
    }
}
