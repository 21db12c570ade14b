//! Inputs with right answers: each NAME.in of the folder that the environment
//! variable ENDRUSP_VECTORS names is run, and the answers are compared with
//! NAME.out beside it. Without the variable nothing is compared.

use std::env;
use std::fs;
use std::path::PathBuf;

/// The inputs of the folder, each with its name and the right answers.
fn vectors() -> Vec<(PathBuf, Vec<u8>, Vec<u8>)> {
    let Some(folder) = env::var_os("ENDRUSP_VECTORS") else {
        eprintln!("ENDRUSP_VECTORS is not set: no vectors are compared");
        return Vec::new();
    };
    let entries = fs::read_dir(&folder).expect("ENDRUSP_VECTORS names a folder");
    let paths = entries.map(|entry| entry.expect("a readable folder").path());
    let mut inputs: Vec<PathBuf> =
        paths.filter(|path| path.extension().is_some_and(|end| end == "in")).collect();
    inputs.sort();
    assert!(!inputs.is_empty(), "{} holds no inputs", folder.display());
    let with_answers = |path: PathBuf| {
        let input = fs::read(&path).expect("a readable input");
        let answers = fs::read(path.with_extension("out")).expect("answers beside the input");
        (path, input, answers)
    };
    inputs.into_iter().map(with_answers).collect()
}

fn compare(run: impl Fn(&[u8]) -> Vec<u8>) {
    for (path, input, right) in vectors() {
        let answers = run(&input);
        let lines = answers.split(|byte| *byte == b'\n');
        let right_lines = right.split(|byte| *byte == b'\n');
        for (number, (line, right_line)) in lines.zip(right_lines).enumerate() {
            let (line, right_line) =
                (String::from_utf8_lossy(line), String::from_utf8_lossy(right_line));
            assert_eq!(line, right_line, "{}, line {}", path.display(), number + 1);
        }
        assert_eq!(answers.len(), right.len(), "{}", path.display());
    }
}

#[test]
fn the_model_answers_the_vectors() {
    compare(endrusp::model::run_text);
}

#[cfg(feature = "linked")]
#[test]
fn the_library_answers_the_vectors() {
    compare(endrusp::run);
}
