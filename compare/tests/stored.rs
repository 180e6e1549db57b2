//! The stored samples are what their writers write, and the programs of the gate are run on them.

use compare::answer::answer;
use compare::deep::on_deep_stack;
use compare::edits::{file::edits_file, report::report as edits_report, stored, FILE, REPORT};
use compare::files;
use compare::forms;
use compare::generate::sample_texts;
use compare::layouts;
use compare::sample::{self, sample_file};
use compare::terms::Answer;

fn read(file: &str) -> Vec<u8> {
    std::fs::read(file).unwrap_or_else(|error| panic!("{file}: {error}"))
}

#[test]
fn edits_are_as_written() {
    let (written, counts) = on_deep_stack(|| {
        let edits = stored();
        (edits_file(&edits), edits_report(&edits))
    });
    assert!(written == read(FILE), "write it again with `edits`");
    assert!(
        counts.as_bytes() == read(REPORT),
        "write it again with `edits`"
    );
}

#[test]
fn tables_are_as_written() {
    let cases = files::cases::stored();
    let written = files::file::files_file(&cases);
    assert!(written == read(files::FILE), "write it again with `files`");
    let counts = files::report::report(&cases);
    assert!(
        counts.as_bytes() == read(files::REPORT),
        "write it again with `files`"
    );
    for load in cases.iter().flat_map(|case| &case.loads) {
        assert!(load.file.len() <= files::MOST_BYTES);
    }
}

#[test]
fn files_beside_texts_are_as_written() {
    let cases = forms::cases::stored();
    let written = forms::file::forms_file(&cases);
    assert!(written == read(forms::FILE), "write it again with `forms`");
    let counts = forms::report::report(&cases);
    assert!(
        counts.as_bytes() == read(forms::REPORT),
        "write it again with `forms`"
    );
    for call in cases.iter().flat_map(|case| &case.calls) {
        let most = match call.kind {
            forms::Kind::Load => forms::MOST_WORDS,
            forms::Kind::Move | forms::Kind::Mend => forms::MOST_BYTES,
        };
        assert!(call.room <= most && call.list <= forms::MOST_LISTED);
    }
    assert!(cases
        .iter()
        .all(|case| case.file.len() <= forms::MOST_BYTES));
}

#[test]
fn layouts_are_as_written() {
    let cases = on_deep_stack(layouts::cases::stored);
    let written = layouts::file::layouts_file(&cases);
    let again = "write it again with `layouts`";
    assert!(written == read(layouts::FILE), "{again}");
    let counts = layouts::report::report(&cases);
    assert!(counts.as_bytes() == read(layouts::REPORT), "{again}");
    let calls = cases.iter().flat_map(|case| &case.calls);
    assert!(calls.clone().all(|call| call.room <= layouts::MOST_BYTES));
    for number in [0, 3, 4] {
        assert!(calls.clone().any(|call| call.number == number));
    }
}

#[test]
fn the_sample_is_as_written() {
    let texts = sample_texts(4000, 1);
    let answers: Vec<Answer> = on_deep_stack(|| texts.iter().map(|text| answer(text)).collect());
    let written = sample_file(texts.iter().map(Vec::as_slice).zip(&answers));
    assert!(
        written.as_bytes() == read(sample::FILE),
        "write it again with `sample 4000 1`"
    );
    assert!(
        sample::report(&answers).as_bytes() == read(sample::REPORT),
        "write it again with `sample 4000 1`"
    );
}
