//! Random documents: a matcher answers them tag by tag as the script of the same tags is answered, whose output is proved.

mod support;

use support::{answers_of, script_of, Case, Numbers};
use zugrenja::{run_script, Ending};

#[test]
fn tags_are_answered_as_in_scripts() {
    let (mut reported, mut explained) = (0, 0);
    for seed in 0..400 {
        let case = Case::random(&mut Numbers::of(seed));
        let script = script_of(&case);
        let (ending, output) = run_script(&script).unwrap();
        let answers = answers_of(&case);
        assert_eq!(answers, String::from_utf8(output).unwrap(), "seed {seed}:\n{script}");
        assert_eq!(ending == Ending::Refused, answers.contains("refused"));
        reported += answers.lines().filter(|line| line.starts_with("start") && !line.starts_with("start\t-")).count();
        explained += answers.lines().filter(|line| line.starts_with("why")).count();
    }
    assert!(reported > 2000 && explained > 2000, "{reported}, {explained}");
}
