//! The examples, each at every width: what they print stands beside them.
use lakmozet::run;
use std::ffi::OsStr;
use std::fs;
use std::path::Path;

const WIDTHS: [&str; 5] = ["1", "2", "4", "8", "16"];

fn form(file: &str) -> &str {
    match file {
        "cape.txt" => "obj",
        "rollback.txt" => "marks",
        "host.txt" => "host",
        log if log.ends_with(".log") => "replay",
        _ => "simulate",
    }
}

fn written(words: &[&str], input: &[u8]) -> Vec<u8> {
    let mut output = Vec::new();
    run(words, input, &mut output);
    output
}

#[test]
fn each_prints_what_stands_beside_it() {
    let folder = Path::new(env!("CARGO_MANIFEST_DIR")).join("tests/examples");
    let mut files: Vec<_> = fs::read_dir(folder)
        .unwrap()
        .map(|it| it.unwrap().path())
        .collect();
    files.retain(|it| it.extension() != Some(OsStr::new("out")));
    assert!(files.len() >= 10, "{files:?}");
    for file in files {
        let name = file.file_name().unwrap().to_str().unwrap();
        let input = fs::read(&file).unwrap();
        let output = fs::read(file.with_extension("out")).unwrap();
        for width in WIDTHS {
            let form = form(name);
            let same = written(&[form, width], &input) == output;
            assert!(same, "{form} {width} of {name}");
            if form == "simulate" {
                let scrambled = written(&["scramble", width], &input);
                assert!(scrambled == output, "scramble {width} of {name}");
                let log = written(&["record", width], &input);
                assert!(
                    written(&["replay", "4"], &log) == output,
                    "record {width} of {name}"
                );
            }
        }
    }
}
