//! Numbers of 33 bits name nothing, also where a `usize` has 32.
use lakmozet::run;

const SCENE: &str = "[[particle]]
at = [0, 0, 0]
[[particle]]
at = [9, 0, 0]
[[link]]
a = 0
b = 1
%%
";

fn written(form: &str, script: &str) -> String {
    let input = [SCENE, script].concat();
    let mut output = Vec::new();
    run(&[form, "4"], input.as_bytes(), &mut output);
    String::from_utf8(output).unwrap()
}

#[test]
fn links_and_particles() {
    let lines = written(
        "simulate",
        "cut 4294967296\npin 4294967296\nunpin 4294967297\nmove 4294967296 1 2 3\nstep 4294967297\nframe\n",
    );
    assert_eq!(
        lines,
        "refused 3 NoLink\nrefused 2 NoParticle\nrefused 2 NoParticle\nrefused 2 NoParticle\nrefused 9 BadCount\n\
         frame 0 2 1 0\n0 0 0\n9 0 0\n"
    );
}

#[test]
fn marks() {
    let lines = written("marks", "mark 0\nmark 4294967296\nrewind 4294967296\n");
    assert_eq!(lines, "ok\nrefused 13 BadMark\nrefused 13 BadMark\n");
}
